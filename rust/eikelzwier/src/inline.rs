//! A bus without a heap.

use crate::{
    archive_version, bus_buffers, bus_call, raw, Commands, Journal, Journalled, Outcome, Recovered,
    Stopped, VERSION,
};

macro_rules! inline_bus {
    ([$($name:ident: [$element:ty; $len:expr], $constant:ident;)*]) => {
        /// A message bus of eight peers whose buffers are part of it: 178,824 bytes, for
        /// a static or for memory of the caller's own. It needs no heap, and with
        /// `default-features = false` this crate needs no standard library.
        ///
        /// ```
        /// use std::sync::Mutex;
        /// use eikelzwier::{Commands, InlineBus, Peer, Refusal, User};
        ///
        /// static BUS: Mutex<InlineBus> = Mutex::new(InlineBus::new());
        ///
        /// let mut bus = BUS.lock().unwrap();
        /// bus.open(Peer(0), User(0))?;
        /// assert_eq!(bus.open(Peer(0), User(0)), Err(Refusal::Exists));
        /// # Ok::<(), Refusal>(())
        /// ```
        #[derive(Clone, PartialEq, Eq)]
        pub struct InlineBus {
            $($name: [$element; $len],)*
        }

        impl InlineBus {
            /// A fresh bus: no peer opened. A fresh bus is zeros everywhere
            /// (docs/BUFFERS.md), so this needs no call of the archive.
            pub const fn new() -> InlineBus {
                InlineBus {
                    $($name: [0; $len],)*
                }
            }
        }
    };
}
bus_buffers!(inline_bus);

/// What is answered where the archive is of another version.
const MISMATCH: Outcome = Outcome { number: 5, len: 0 };

impl Default for InlineBus {
    fn default() -> InlineBus {
        InlineBus::new()
    }
}

impl InlineBus {
    /// Makes the bus fresh again: no peer opened.
    ///
    /// # Panics
    /// Where the archive is of another version than this crate.
    pub fn reset(&mut self) {
        assert_eq!(archive_version(), VERSION, "the archive's version");
        // Safety: pointers and lengths are those of the arrays, which are borrowed
        // mutably here and lie apart.
        let number = unsafe { bus_call!(raw::bus_fresh, self) };
        assert_eq!(number, 0, "the buffers have their lengths");
    }

    /// As [`Bus::recover`](crate::Bus::recover).
    ///
    /// # Panics
    /// Where the archive is of another version than this crate.
    pub fn recover(&mut self, kept: &[u8]) -> Result<Recovered, Stopped> {
        assert_eq!(archive_version(), VERSION, "the archive's version");
        // Safety: as in `reset`; the bytes kept are only read.
        let recovery = unsafe { bus_call!(raw::bus_recover, self, kept.as_ptr(), kept.len()) };
        match recovery.number {
            0 => Ok(Recovered {
                lines: recovery.line,
                used: recovery.used,
            }),
            _ => Err(Stopped {
                line: recovery.line,
                place: (recovery.place != raw::NO_PLACE).then_some(recovery.place),
            }),
        }
    }
}

impl Commands for InlineBus {
    fn command(&mut self, frame: &[u8], answer: &mut [u8]) -> Outcome {
        if archive_version() != VERSION {
            return MISMATCH;
        }
        // Safety: as in `reset`; frame and answer are borrowed too, the answer
        // mutably, so no two of the buffers overlap.
        let outcome = unsafe {
            bus_call!(
                raw::bus_command,
                self,
                frame.as_ptr(),
                frame.len(),
                answer.as_mut_ptr(),
                answer.len(),
            )
        };
        Outcome {
            number: outcome.number,
            len: outcome.len,
        }
    }
}

impl Journalled for InlineBus {
    fn command_with_journal(
        &mut self,
        frame: &[u8],
        answer: &mut [u8],
        journal: &mut Journal,
    ) -> Outcome {
        if archive_version() != VERSION {
            return MISMATCH;
        }
        // Safety: as in `command`; the journal's bytes are borrowed mutably by
        // the journal, which is borrowed mutably here.
        let report = unsafe {
            bus_call!(
                raw::bus_command_with_journal,
                self,
                frame.as_ptr(),
                frame.len(),
                answer.as_mut_ptr(),
                answer.len(),
                journal.bytes.as_mut_ptr(),
                journal.bytes.len(),
                journal.used,
            )
        };
        journal.used = report.used;
        Outcome {
            number: report.number,
            len: report.len,
        }
    }
}
