//! The library and the reference bus on the same random commands: numbers,
//! lengths and answers must be the same.

use std::fmt;

use eikelzwier::{Bus, ANSWER_LEN};
use reference::script::{Generator, Profile, Random};

/// What was compared.
pub struct Tally {
    /// Commands given to both.
    pub commands: u64,
    /// Scripts, each on a fresh bus.
    pub scripts: u64,
    /// How often each number was returned.
    pub numbers: [u64; 256],
}

impl fmt::Display for Tally {
    fn fmt(&self, f: &mut fmt::Formatter) -> fmt::Result {
        write!(
            f,
            "{} commands in {} scripts; returned",
            self.commands, self.scripts
        )?;
        for (number, times) in self.numbers.iter().enumerate().filter(|(_, n)| **n > 0) {
            write!(f, " {number}: {times}")?;
        }
        Ok(())
    }
}

/// The bytes that a line spells, or the line itself where it is not
/// hexadecimal: a frame may be anything.
fn unhex(line: &[u8], frame: &mut Vec<u8>) {
    let digit = |c: u8| match c {
        b'0'..=b'9' => Some(c - b'0'),
        b'a'..=b'f' => Some(c - b'a' + 10),
        _ => None,
    };
    frame.clear();
    for pair in line.chunks(2) {
        let byte = match pair {
            [high, low] => digit(*high).zip(digit(*low)),
            _ => None,
        };
        match byte {
            Some((high, low)) => frame.push(high * 16 + low),
            None => {
                frame.clear();
                frame.extend_from_slice(line);
                return;
            }
        }
    }
}

/// Both buses, each with its answer buffer.
struct Pair {
    library: Bus,
    reference: reference::Bus,
    answers: [Vec<u8>; 2],
    before: Vec<u8>,
}

impl Pair {
    fn new(random: &mut Random) -> Pair {
        let answer: Vec<u8> = (0..ANSWER_LEN + 64).map(|_| random.draw() as u8).collect();
        Pair {
            library: Bus::new(),
            reference: reference::Bus::new(),
            answers: [answer.clone(), answer.clone()],
            before: answer,
        }
    }

    /// One command to both; the number returned.
    fn command(&mut self, frame: &[u8], answer_len: usize) -> Result<u8, String> {
        let [library, reference] = &mut self.answers;
        self.before.copy_from_slice(library);
        let ours = self.library.command(frame, &mut library[..answer_len]);
        let theirs = self.reference.command(frame, &mut reference[..answer_len]);
        let end = ours.len.min(answer_len);
        if library[end..] != self.before[end..] {
            return Err(format!("bytes behind the answer's {end} were written"));
        }
        if (ours.number, ours.len) != (theirs.number, theirs.len) || library != reference {
            return Err(format!(
                "the library answers {} {:02x?}, the reference {} {:02x?}",
                ours.number,
                &library[..end],
                theirs.number,
                &reference[..theirs.len]
            ));
        }
        Ok(ours.number)
    }
}

/// One script on a fresh bus.
fn script(seed: u64, lines: usize, profile: Profile, tally: &mut Tally) -> Result<(), String> {
    let mut random = Random::new(!seed);
    let mut generator = Generator::new(seed, lines, profile);
    let mut pair = Pair::new(&mut random);
    let (mut line, mut frame) = (Vec::new(), Vec::new());
    for number in 1..=lines {
        line.clear();
        generator.line(&mut line);
        unhex(&line[..line.len() - 1], &mut frame);
        // Now and then the answer buffer is too short at first, or longer.
        let (tries, len) = match random.below(64) {
            0 => ([Some(random.below(ANSWER_LEN)), None], ANSWER_LEN),
            1 => ([Some(ANSWER_LEN - 1), None], ANSWER_LEN),
            2 => ([None, None], ANSWER_LEN + random.below(65)),
            _ => ([None, None], ANSWER_LEN),
        };
        for answer_len in tries.into_iter().flatten().chain([len]) {
            let returned = pair.command(&frame, answer_len).map_err(|difference| {
                format!(
                    "script of seed {seed}, {lines} lines, profile {}: line {number}, \
                     frame {frame:02x?}, answer buffer of {answer_len}: {difference}",
                    profile.name()
                )
            })?;
            tally.commands += 1;
            tally.numbers[usize::from(returned)] += 1;
        }
    }
    tally.scripts += 1;
    Ok(())
}

/// Compares both on random scripts of every profile in turn, short ones
/// and long ones, until `over` says so after a script.
///
/// # Errors
/// Tells the first command on which they differ, with its script.
pub fn compare(seed: u64, mut over: impl FnMut(&Tally) -> bool) -> Result<Tally, String> {
    let mut random = Random::new(seed);
    let mut tally = Tally {
        commands: 0,
        scripts: 0,
        numbers: [0; 256],
    };
    loop {
        for lines in [300, 3000, 300, 12000] {
            for profile in Profile::ALL {
                script(random.draw(), lines, profile, &mut tally)?;
                if over(&tally) {
                    return Ok(tally);
                }
            }
        }
    }
}
