//! The commands as methods, with a journal.

use crate::{Commands, Journal, Outcome};

/// A bus that can keep its commands in a journal.
///
/// ```
/// use eikelzwier::{Bus, Commands, Journal, Journalled, Peer, Refusal, User};
///
/// let mut bytes = [0; 16];
/// let mut journal = Journal::new(&mut bytes);
/// let mut bus = Bus::new();
/// let mut kept = bus.with_journal(&mut journal);
/// kept.open(Peer(0), User(0))?;
/// kept.open(Peer(1), User(1))?;
/// assert_eq!(kept.open(Peer(2), User(2)), Err(Refusal::JournalFull));
/// assert_eq!(journal.kept(), b"010000\n010101\n");
/// # Ok::<(), Refusal>(())
/// ```
pub trait Journalled {
    /// As [`Bus::command_with_journal`](crate::Bus::command_with_journal).
    fn command_with_journal(
        &mut self,
        frame: &[u8],
        answer: &mut [u8],
        journal: &mut Journal,
    ) -> Outcome;

    /// The bus with this journal: its [`Commands`] keep what they carry out.
    fn with_journal<'s, 'j>(&'s mut self, journal: &'s mut Journal<'j>) -> Kept<'s, 'j, Self>
    where
        Self: Sized,
    {
        Kept { bus: self, journal }
    }
}

/// A bus with its journal, for some commands. What they add to the journal is to
/// be durable before their answers are used (docs/RECOVERY.md).
pub struct Kept<'s, 'j, B> {
    bus: &'s mut B,
    journal: &'s mut Journal<'j>,
}

impl<B: Journalled> Commands for Kept<'_, '_, B> {
    fn command(&mut self, frame: &[u8], answer: &mut [u8]) -> Outcome {
        self.bus.command_with_journal(frame, answer, self.journal)
    }
}
