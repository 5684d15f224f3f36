//! The message bus of document 01 in ordinary Rust, with the seed message, the
//! invalid handles by order and the journal of document 02, No. 1, No. 2 and No. 4.
//!
//! Written from these documents and the readings of their doubtful clauses in docs/DECISIONS.md,
//! not from the proved core's definitions, so that agreement with the core
//! means something. It keeps its state in its own tables, not in lent buffers,
//! so of EIO (5) only the journal's cases are here.
//!
//! - [`Bus`] takes one frame and writes one answer.
//! - [`answer_lines`] does so for lines of hexadecimal.
//! - [`journal`] keeps the commands, and finds the bus again from them.

#![forbid(unsafe_code)]
#![warn(missing_docs)]

pub mod bench;
mod bus;
mod frame;
mod handles;
mod ids;
pub mod journal;
mod line;
mod queue;
mod quota;
mod refusal;
pub mod script;
#[cfg(test)]
mod tests;

pub use bus::{Bus, HandleView, Outcome, ANSWER_LEN};
pub use frame::{MAX_ATTACHED, MAX_DESTINATIONS, MAX_FRAME, MAX_PAYLOAD};
pub use ids::{HandleId, Peer, User};
pub use line::{answer_lines, answer_lines_with, MAX_DIGITS};
pub use quota::{left, Charge, Charges, LIMITS};
pub use refusal::Refusal;
