//! The proved message bus core, for Rust.
//!
//! [`Bus`] owns the buffers in which a bus lives and takes one frame at a time;
//! [`Commands`] has a method for each command. [`InlineBus`] needs no heap.
//! What frames and answers look like is in docs/WIRE.md; the numbers of the
//! refusals are in [`Refusal`].
//!
//! Peer 0 of user 0 creates a node and hands it to peer 1, which sends a byte
//! to it (script S of the README):
//!
//! ```
//! use eikelzwier::{Bus, Refusal, ANSWER_LEN};
//!
//! let mut bus = Bus::new();
//! let mut answer = [0; ANSWER_LEN];
//!
//! // Peers 0 and 1 open, for users 0 and 1.
//! assert_eq!(bus.command(&[0x01, 0, 0], &mut answer).refusal(), None);
//! assert_eq!(bus.command(&[0x01, 1, 1], &mut answer).refusal(), None);
//!
//! // Peer 0 creates node 8 and transfers it to peer 1, where it is called 7.
//! bus.command(&[0x03, 0, 0, 0, 0, 0, 0, 0, 0, 8], &mut answer);
//! let outcome = bus.command(&[0x06, 0, 0, 0, 0, 0, 0, 0, 0, 8, 1], &mut answer);
//! assert_eq!(answer[..outcome.len], [0, 0, 0, 0, 0, 0, 0, 0, 7]);
//!
//! // Peer 1 sends it the byte 33 in hexadecimal, and peer 0 receives that.
//! let send = [0x07, 1, 1, 0, 0, 1, 0, 0, 0, 0, 0, 0, 0, 7, 0x33];
//! assert_eq!(bus.command(&send, &mut answer).number, 0);
//! let outcome = bus.command(&[0x08, 0, 0, 1], &mut answer);
//! assert_eq!(
//!     answer[..outcome.len],
//!     [0, 1, 0, 0, 0, 0, 0, 0, 0, 8, 1, 0, 0, 1, 0, 0x33]
//! );
//!
//! // Nothing is left.
//! let outcome = bus.command(&[0x08, 0, 0, 1], &mut answer);
//! assert_eq!(outcome.refusal(), Some(Refusal::NothingQueued));
//! assert_eq!(answer[..outcome.len], [11]);
//! ```

#![warn(missing_docs)]
#![cfg_attr(not(feature = "std"), no_std)]

mod buffers;
mod inline;
mod journal;
mod kept;
pub mod raw;
mod refusal;
mod typed;
mod version;

pub use inline::InlineBus;
pub use journal::{Journal, Recovered, Stopped};
pub use kept::{Journalled, Kept};
pub use refusal::{Refusal, UnknownNumber};
pub use typed::{Commands, HandleId, Handles, Holders, Message, Peer, Quota, Received, Seed, User};
pub use typed::{MAX_DESTINATIONS, MAX_HANDLES, MAX_PAYLOAD, MAX_ROOM};
pub use version::{archive_version, VERSION};

/// Bytes of the longest answer. A shorter answer buffer is refused.
pub const ANSWER_LEN: usize = 591;

/// Bytes of the longest frame that is not refused.
pub const MAX_FRAME: usize = 646;

/// What [`Bus::command`] returns.
#[derive(Clone, Copy, PartialEq, Eq, Debug)]
pub struct Outcome {
    /// 0, or the number of the refusal. It is also the answer's first byte.
    pub number: u8,
    /// How many bytes of the answer buffer were written. Those behind are not
    /// touched.
    pub len: usize,
}

impl Outcome {
    /// Why the command was refused; `None` if it was carried out.
    pub fn refusal(self) -> Option<Refusal> {
        Refusal::from_number(self.number)
    }
}

#[cfg(feature = "std")]
macro_rules! bus {
    ([$($name:ident: [$element:ty; $len:expr], $constant:ident;)*]) => {
        /// A message bus of eight peers, in buffers of its own on the heap.
        ///
        /// Two are equal if their buffers are, to the byte.
        #[derive(Clone, PartialEq, Eq)]
        pub struct Bus {
            $($name: Box<[$element]>,)*
        }

        impl Bus {
            /// Buffers of the right lengths, cleared.
            fn cleared() -> Bus {
                Bus {
                    $($name: vec![0; $len].into_boxed_slice(),)*
                }
            }
        }
    };
}
#[cfg(feature = "std")]
bus_buffers!(bus);

#[cfg(feature = "std")]
impl Default for Bus {
    fn default() -> Bus {
        Bus::new()
    }
}

#[cfg(feature = "std")]
impl Commands for Bus {
    #[inline]
    fn command(&mut self, frame: &[u8], answer: &mut [u8]) -> Outcome {
        Bus::command(self, frame, answer)
    }
}

#[cfg(feature = "std")]
impl Journalled for Bus {
    #[inline]
    fn command_with_journal(
        &mut self,
        frame: &[u8],
        answer: &mut [u8],
        journal: &mut Journal,
    ) -> Outcome {
        Bus::command_with_journal(self, frame, answer, journal)
    }
}

#[cfg(feature = "std")]
impl Bus {
    /// A fresh bus: no peer opened.
    ///
    /// # Panics
    /// Where the archive is of another version than this crate.
    pub fn new() -> Bus {
        let mut bus = Bus::cleared();
        bus.reset();
        bus
    }

    /// Makes the bus fresh again: no peer opened.
    pub fn reset(&mut self) {
        assert_eq!(archive_version(), VERSION, "the archive's version");
        // Safety: pointers and lengths are those of the buffers, which are
        // borrowed mutably here and lie apart.
        let number = unsafe { bus_call!(raw::bus_fresh, self) };
        assert_eq!(number, 0, "the buffers have their lengths");
    }

    /// Carries out one command. Its answer is written to the front of the
    /// answer buffer; what lies behind the answer is not touched.
    ///
    /// A refusal writes its one byte and leaves the bus alone. An answer buffer
    /// under [`ANSWER_LEN`] bytes is refused with 22 and length 0, and nothing
    /// is written.
    #[inline]
    pub fn command(&mut self, frame: &[u8], answer: &mut [u8]) -> Outcome {
        // Safety: pointers and lengths are those of the buffers and slices,
        // which are borrowed here, mutably where they may be written, so no two
        // of them overlap. A pointer of a slice is never null.
        let outcome = unsafe {
            bus_call!(
                raw::bus_command,
                self,
                frame.as_ptr(),
                frame.len(),
                answer.as_mut_ptr(),
                answer.len(),
            )
        };
        Outcome {
            number: outcome.number,
            len: outcome.len,
        }
    }
}
