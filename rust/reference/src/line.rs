//! Lines of lowercase hexadecimal: one frame in, one answer out.

use std::io::{self, ErrorKind, Read, Write};

use crate::bus::{Bus, ANSWER_LEN};
use crate::frame::MAX_FRAME;
use crate::refusal::Refusal;

/// Digits of the longest line that is carried out.
pub const MAX_DIGITS: usize = 2 * MAX_FRAME;

/// Bytes asked for in one read.
const CHUNK: usize = 1 << 16;
/// Written out when so many bytes of answers have gathered.
const WRITE_OUT: usize = 1 << 16;

/// The value of each lowercase digit; 0xff for any other character.
const DIGIT: [u8; 256] = {
    let mut table = [0xff; 256];
    let mut value = 0;
    while value < 16 {
        table[b"0123456789abcdef"[value] as usize] = value as u8;
        value += 1;
    }
    table
};

/// The frame that a line spells, if it is pairs of lowercase digits and not
/// too long.
fn decode<'a>(line: &[u8], frame: &'a mut [u8; MAX_FRAME]) -> Option<&'a [u8]> {
    let (pairs, []) = line.as_chunks::<2>() else {
        return None;
    };
    let frame = frame.get_mut(..pairs.len())?;
    let mut bad = 0;
    for (byte, &[high, low]) in frame.iter_mut().zip(pairs) {
        let (high, low) = (DIGIT[usize::from(high)], DIGIT[usize::from(low)]);
        bad |= high | low;
        *byte = high << 4 | low & 15;
    }
    (bad < 16).then_some(frame)
}

pub(crate) fn encode(bytes: &[u8], out: &mut Vec<u8>) {
    out.extend(bytes.iter().flat_map(|byte| {
        let digit = |value: u8| b"0123456789abcdef"[usize::from(value)];
        [digit(byte >> 4), digit(byte & 15)]
    }));
}

/// What is carried over from chunk to chunk, and the answers to be written.
struct Lines<'a> {
    bus: &'a mut Bus,
    /// The unfinished line's characters, at most one over the longest line.
    pending: Vec<u8>,
    frame: [u8; MAX_FRAME],
    answer: [u8; ANSWER_LEN],
    out: Vec<u8>,
}

impl Lines<'_> {
    /// Keeps a piece of an unfinished line. What is past the longest line is
    /// not kept, but for one character that tells so.
    fn keep(&mut self, piece: &[u8]) {
        let room = MAX_DIGITS + 1 - self.pending.len();
        self.pending
            .extend_from_slice(&piece[..piece.len().min(room)]);
    }

    /// Answers a whole line, given without its LF.
    fn answer(&mut self, line: &[u8]) {
        match decode(line, &mut self.frame) {
            Some(frame) => {
                let outcome = self.bus.command(frame, &mut self.answer);
                encode(&self.answer[..outcome.len], &mut self.out);
            }
            None => encode(&[Refusal::Invalid.number()], &mut self.out),
        }
        self.out.push(b'\n');
    }

    /// Answers a line whose first pieces were kept.
    fn answer_pending(&mut self) {
        let mut line = std::mem::take(&mut self.pending);
        self.answer(&line);
        line.clear();
        self.pending = line;
    }
}

/// Reads lines from `input` and writes one answer line each to `output`, on a
/// fresh bus. Every whole line read is answered, and the answers flushed,
/// before more is read. A line that is not pairs of lowercase digits, is over
/// [`MAX_DIGITS`] digits or lacks its LF is answered 16.
pub fn answer_lines<R: Read, W: Write>(input: R, output: W) -> io::Result<()> {
    answer_lines_with(&mut Bus::new(), input, output)
}

/// [`answer_lines`] on a bus of the caller's.
pub fn answer_lines_with<R: Read, W: Write>(
    bus: &mut Bus,
    mut input: R,
    mut output: W,
) -> io::Result<()> {
    let mut chunk = vec![0; CHUNK];
    let mut lines = Lines {
        bus,
        pending: Vec::with_capacity(MAX_DIGITS + 1),
        frame: [0; MAX_FRAME],
        answer: [0; ANSWER_LEN],
        out: Vec::with_capacity(WRITE_OUT + 2 * ANSWER_LEN + 1),
    };
    loop {
        let len = match input.read(&mut chunk) {
            Ok(0) => break,
            Ok(len) => len,
            Err(error) if error.kind() == ErrorKind::Interrupted => continue,
            Err(error) => return Err(error),
        };
        let mut rest = &chunk[..len];
        while let Some(end) = rest.iter().position(|byte| *byte == b'\n') {
            let (line, after) = (&rest[..end], &rest[end + 1..]);
            if lines.pending.is_empty() {
                lines.answer(line);
            } else {
                lines.keep(line);
                lines.answer_pending();
            }
            rest = after;
            if lines.out.len() >= WRITE_OUT {
                output.write_all(&lines.out)?;
                lines.out.clear();
            }
        }
        lines.keep(rest);
        output.write_all(&lines.out)?;
        lines.out.clear();
        output.flush()?;
    }
    if !lines.pending.is_empty() {
        output.write_all(b"16\n")?;
        output.flush()?;
    }
    Ok(())
}
