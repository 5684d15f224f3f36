//! The journal of document 02, No. 4, and the bus found again from it; with the
//! place of a line's fault as No. 7 says it.
//!
//! Written from document 02. Nothing here is in a hurry: where a line has no
//! room, the command is tried on a copy of the bus.

use crate::bus::{Bus, ANSWER_LEN};
use crate::line::{self, MAX_DIGITS};

/// 5: a used length over the journal's length, or a line that stops recovery.
pub const EIO: u8 = 5;
/// 27: the journal has no room for the line.
pub const EFBIG: u8 = 27;

/// What [`Bus::command_with_journal`] returns.
#[derive(Clone, Copy, PartialEq, Eq, Debug)]
pub struct Report {
    /// 0, or the number of the refusal.
    pub number: u8,
    /// How many bytes of the answer buffer were written.
    pub len: usize,
    /// The journal's used length.
    pub used: usize,
}

/// A bus found again.
#[derive(Clone)]
pub struct Found {
    /// The bus.
    pub bus: Bus,
    /// How many lines were carried out.
    pub lines: usize,
    /// The journal's used length.
    pub used: usize,
}

/// The line that stops a recovery; the bus is a fresh one then.
#[derive(Clone, Copy, PartialEq, Eq, Debug)]
pub struct Stop {
    /// From 1.
    pub line: usize,
    /// The place of the fault, from 0, if the line is no frame.
    pub place: Option<usize>,
}

/// "Questions left out": 09 and 0a.
fn is_question(frame: &[u8]) -> bool {
    matches!(frame.first(), Some(0x09 | 0x0a))
}

/// The place of a line's first fault: a bad character; the longest line's
/// length where it is longer; its own length where that is odd.
fn fault(line: &[u8]) -> Option<usize> {
    let bad = line
        .iter()
        .position(|c| !matches!(c, b'0'..=b'9' | b'a'..=b'f'));
    let long = (line.len() > MAX_DIGITS).then_some(MAX_DIGITS);
    let odd = (line.len() % 2 == 1).then_some(line.len());
    [bad, long, odd].into_iter().flatten().min()
}

/// The frame of a line that has no fault.
fn frame_of(line: &[u8]) -> Vec<u8> {
    let digit = |c: u8| char::from(c).to_digit(16).unwrap_or(0) as u8;
    line.chunks(2)
        .map(|pair| 16 * digit(pair[0]) + digit(pair[1]))
        .collect()
}

impl Bus {
    /// [`Bus::command`] with a journal of which `used` bytes are used: every
    /// accepted command, questions left out, is appended as its frame line.
    pub fn command_with_journal(
        &mut self,
        frame: &[u8],
        answer: &mut [u8],
        journal: &mut [u8],
        used: usize,
    ) -> Report {
        if answer.len() >= ANSWER_LEN && used > journal.len() {
            return refused(EIO, answer, used);
        }
        let mut line = Vec::new();
        line::encode(frame, &mut line);
        line.push(b'\n');
        let room = journal
            .get_mut(used..)
            .and_then(|rest| rest.get_mut(..line.len()));
        if room.is_none() && self.would_keep(frame, answer) {
            return refused(EFBIG, answer, used);
        }
        let outcome = self.command(frame, answer);
        let mut report = Report {
            number: outcome.number,
            len: outcome.len,
            used,
        };
        if let (0, false, Some(room)) = (outcome.number, is_question(frame), room) {
            room.copy_from_slice(&line);
            report.used += line.len();
        }
        report
    }

    /// Whether the command is accepted and no question, tried on a copy.
    fn would_keep(&self, frame: &[u8], answer: &[u8]) -> bool {
        !is_question(frame) && self.clone().command(frame, &mut answer.to_vec()).number == 0
    }
}

/// A refusal of the journal's, written.
fn refused(number: u8, answer: &mut [u8], used: usize) -> Report {
    answer[0] = number;
    Report {
        number,
        len: 1,
        used,
    }
}

/// The bus after the whole lines of the bytes kept, each carried out from a
/// fresh bus.
pub fn recover(kept: &[u8]) -> Result<Found, Stop> {
    let used = kept
        .iter()
        .rposition(|c| *c == b'\n')
        .map_or(0, |at| at + 1);
    let mut found = Found {
        bus: Bus::new(),
        lines: 0,
        used,
    };
    let mut answer = [0; ANSWER_LEN];
    for line in kept[..used].split_inclusive(|c| *c == b'\n') {
        let line = &line[..line.len() - 1];
        let stop = |place| Stop {
            line: found.lines + 1,
            place,
        };
        if let Some(place) = fault(line) {
            return Err(stop(Some(place)));
        }
        let frame = frame_of(line);
        if is_question(&frame) || found.bus.command(&frame, &mut answer).number != 0 {
            return Err(stop(None));
        }
        found.lines += 1;
    }
    Ok(found)
}

#[cfg(test)]
mod tests {
    use super::*;

    /// Script S of document 01; its last line is refused.
    const S: [&str; 7] = [
        "010000",
        "010101",
        "03000000000000000008",
        "0600000000000000000801",
        "070101000001000000000000000733",
        "08000001",
        "08000001",
    ];

    fn keep(length: usize) -> (Vec<usize>, Vec<u8>) {
        let mut bus = Bus::new();
        let mut answer = [0; ANSWER_LEN];
        let (mut journal, mut used) = (vec![b'x'; length], 0);
        let mut all = Vec::new();
        for line in S {
            let frame = frame_of(line.as_bytes());
            used = bus
                .command_with_journal(&frame, &mut answer, &mut journal, used)
                .used;
            all.push(used);
        }
        (all, journal)
    }

    #[test]
    fn used_lengths() {
        let (used, journal) = keep(200);
        assert_eq!(used, [7, 14, 35, 58, 89, 98, 98]);
        assert!(journal[98..].iter().all(|c| *c == b'x'));
        assert_eq!(keep(97).0, [7, 14, 35, 58, 89, 89, 89]);
    }

    #[test]
    fn cut_at_every_byte() {
        let (used, journal) = keep(98);
        for cut in 0..=98 {
            let found = recover(&journal[..cut]).ok().expect("no line is refused");
            let lines = used[..6].iter().filter(|end| **end <= cut).count();
            assert_eq!(found.lines, lines);
            assert_eq!(found.used, if lines == 0 { 0 } else { used[lines - 1] });
        }
    }

    #[test]
    fn stops() {
        let stop = |kept: &[u8]| recover(kept).err().map(|s| (s.line, s.place));
        assert_eq!(stop(b"010000\n010000\n"), Some((2, None)));
        assert_eq!(stop(b"010000\n090000\n"), Some((2, None)));
        assert_eq!(stop(b"\n"), Some((1, None)));
        assert_eq!(stop(b"0100g0\n"), Some((1, Some(4))));
        assert_eq!(stop(b"01000\n"), Some((1, Some(5))));
        assert_eq!(stop(b"010000\r\n"), Some((1, Some(6))));
        assert_eq!(
            stop(&[&[b'0'; 1294][..], b"\n"].concat()),
            Some((1, Some(1292)))
        );
        assert_eq!(stop(b"0100g0"), None);
        assert_eq!(stop(b""), None);
    }
}
