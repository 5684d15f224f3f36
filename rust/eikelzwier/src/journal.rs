//! The journal, and recovery from the bytes kept of one.
//!
//! ```
//! use eikelzwier::{Bus, Journal, ANSWER_LEN};
//!
//! let mut bytes = [0; 200];
//! let mut journal = Journal::new(&mut bytes);
//! let mut bus = Bus::new();
//! let mut answer = [0; ANSWER_LEN];
//! bus.command_with_journal(&[0x01, 0, 0], &mut answer, &mut journal);
//! bus.command_with_journal(&[0x01, 1, 1], &mut answer, &mut journal);
//! assert_eq!(journal.kept(), b"010000\n010101\n");
//!
//! // The power is cut in the second line.
//! let kept = b"010000\n0101";
//! let mut bus = Bus::new();
//! let recovered = bus.recover(kept).expect("a journal of this version");
//! assert_eq!((recovered.lines, recovered.used), (1, 7));
//! ```

#[cfg(feature = "std")]
use crate::{bus_call, raw, Bus, Outcome};

/// A lent buffer in which every accepted command is kept as its line, and how
/// much of it is used.
///
/// It belongs to one bus: what [`Bus::command_with_journal`] keeps here is what
/// [`Bus::recover`] makes that bus from. docs/RECOVERY.md says what else the
/// caller owes.
#[derive(Debug)]
pub struct Journal<'a> {
    pub(crate) bytes: &'a mut [u8],
    pub(crate) used: usize,
}

impl<'a> Journal<'a> {
    /// A journal with nothing in it, for a fresh bus.
    pub fn new(bytes: &'a mut [u8]) -> Journal<'a> {
        Journal { bytes, used: 0 }
    }

    /// A journal to go on with after a recovery: the buffer begins with the
    /// first `used` of the bytes that were recovered. `None` if it is shorter.
    pub fn resumed(bytes: &'a mut [u8], used: usize) -> Option<Journal<'a>> {
        (used <= bytes.len()).then_some(Journal { bytes, used })
    }

    /// The lines kept. What a command has added to them is to be durable before
    /// its answer is used.
    pub fn kept(&self) -> &[u8] {
        &self.bytes[..self.used]
    }

    /// The used length.
    pub fn used(&self) -> usize {
        self.used
    }
}

/// What a recovery has found.
#[derive(Clone, Copy, PartialEq, Eq, Debug)]
pub struct Recovered {
    /// How many lines were carried out.
    pub lines: usize,
    /// The journal's used length: where the last of them ends.
    pub used: usize,
}

/// The line that stopped a recovery.
#[derive(Clone, Copy, PartialEq, Eq, Debug)]
pub struct Stopped {
    /// Its number, from 1.
    pub line: usize,
    /// Where the line reader refused it: the place of its first fault, from 0.
    /// `None` for a frame that was refused, or that is a question.
    pub place: Option<usize>,
}

#[cfg(feature = "std")]
impl Bus {
    /// Carries out one command as [`Bus::command`] does. If it is accepted and
    /// no question, it is appended to the journal as its line before the bus is
    /// changed. If the line has no room there, the command is refused with 27,
    /// the last of all checks.
    #[inline]
    pub fn command_with_journal(
        &mut self,
        frame: &[u8],
        answer: &mut [u8],
        journal: &mut Journal,
    ) -> Outcome {
        // Safety: as in `command`; the journal's bytes are borrowed mutably by
        // the journal, which is borrowed mutably here.
        let report = unsafe {
            bus_call!(
                raw::bus_command_with_journal,
                self,
                frame.as_ptr(),
                frame.len(),
                answer.as_mut_ptr(),
                answer.len(),
                journal.bytes.as_mut_ptr(),
                journal.bytes.len(),
                journal.used,
            )
        };
        journal.used = report.used;
        Outcome {
            number: report.number,
            len: report.len,
        }
    }

    /// Makes this the bus that the bytes kept of a journal tell, whatever it was
    /// before: a fresh one, and on it each whole line carried out. A trailing
    /// piece without LF is ignored.
    ///
    /// A line that is no frame, that is refused or that is a question stops it,
    /// and this is a fresh bus then.
    pub fn recover(&mut self, kept: &[u8]) -> Result<Recovered, Stopped> {
        // Safety: as in `command`; the bytes kept are only read.
        let recovery = unsafe { bus_call!(raw::bus_recover, self, kept.as_ptr(), kept.len(),) };
        match recovery.number {
            0 => Ok(Recovered {
                lines: recovery.line,
                used: recovery.used,
            }),
            _ => Err(Stopped {
                line: recovery.line,
                place: (recovery.place != raw::NO_PLACE).then_some(recovery.place),
            }),
        }
    }
}
