//! The refusal numbers.

use core::error::Error;
use core::fmt;

/// Why a command was refused; the discriminant is the number answered.
#[derive(Clone, Copy, PartialEq, Eq, Hash, Debug)]
#[repr(u8)]
pub enum Refusal {
    /// EPERM: destroy or holders question by a peer not the owner; release of a
    /// live node's owner handle at count 1.
    NotPermitted = 1,
    /// EIO: a bus buffer lacks its length, or a number stored there is out of
    /// its range. Never answered by a [`Bus`](crate::Bus).
    Damaged = 5,
    /// ENXIO: an ID that the acting peer does not hold.
    NoHandle = 6,
    /// EBADF: a peer never opened.
    NeverOpened = 9,
    /// EAGAIN: receive, nothing queued; or no seed set.
    NothingQueued = 11,
    /// EEXIST: open of an open peer, or create with an ID that the peer holds.
    Exists = 17,
    /// EINVAL: an answer buffer under 591 bytes, an empty frame, a wrong
    /// length, a peer over 7, a user over 3, or create with ID bit 0 or 1 set;
    /// of [`send`](crate::Commands::send) also no destination.
    Invalid = 22,
    /// ENOTTY: command byte unknown.
    UnknownCommand = 25,
    /// EFBIG: with a journal alone; all else accepts the command, and its line
    /// has no room there.
    JournalFull = 27,
    /// ENOSPC: create with 16 nodes counted.
    NoRoom = 28,
    /// ERANGE: the next message is over the room of the receive, or the seed.
    OverRoom = 34,
    /// EOVERFLOW: 2^40 - 1 commands accepted already.
    Overflow = 75,
    /// EMSGSIZE: send or seed with over 8 destinations, 8 handles or 512 bytes.
    TooLarge = 90,
    /// ESHUTDOWN: a peer that has disconnected.
    Disconnected = 108,
    /// EHOSTUNREACH: destroy of, transfer of, or send to a destroyed node.
    Destroyed = 113,
    /// EDQUOT: quota.
    Quota = 122,
}

impl Refusal {
    /// Every refusal, by its number.
    pub const ALL: [Refusal; 16] = [
        Refusal::NotPermitted,
        Refusal::Damaged,
        Refusal::NoHandle,
        Refusal::NeverOpened,
        Refusal::NothingQueued,
        Refusal::Exists,
        Refusal::Invalid,
        Refusal::UnknownCommand,
        Refusal::JournalFull,
        Refusal::NoRoom,
        Refusal::OverRoom,
        Refusal::Overflow,
        Refusal::TooLarge,
        Refusal::Disconnected,
        Refusal::Destroyed,
        Refusal::Quota,
    ];

    /// The number answered.
    pub fn number(self) -> u8 {
        self as u8
    }

    /// The refusal of this number, if it is one's.
    pub fn from_number(number: u8) -> Option<Refusal> {
        Refusal::ALL.into_iter().find(|r| r.number() == number)
    }

    /// Its name and what it says, for a log.
    fn text(self) -> (&'static str, &'static str) {
        match self {
            Refusal::NotPermitted => ("EPERM", "not the owner, or the owner's last reference"),
            Refusal::Damaged => ("EIO", "a bus buffer is damaged"),
            Refusal::NoHandle => ("ENXIO", "the peer has no such handle"),
            Refusal::NeverOpened => ("EBADF", "the peer was never opened"),
            Refusal::NothingQueued => ("EAGAIN", "nothing is queued"),
            Refusal::Exists => ("EEXIST", "open or held already"),
            Refusal::Invalid => ("EINVAL", "an invalid frame or answer buffer"),
            Refusal::UnknownCommand => ("ENOTTY", "an unknown command"),
            Refusal::JournalFull => ("EFBIG", "the journal is full"),
            Refusal::NoRoom => ("ENOSPC", "the owner has 16 nodes"),
            Refusal::OverRoom => ("ERANGE", "the message is over the room"),
            Refusal::Overflow => ("EOVERFLOW", "the bus has taken all its commands"),
            Refusal::TooLarge => ("EMSGSIZE", "the send is too large"),
            Refusal::Disconnected => ("ESHUTDOWN", "the peer has disconnected"),
            Refusal::Destroyed => ("EHOSTUNREACH", "the node was destroyed"),
            Refusal::Quota => ("EDQUOT", "over the quota"),
        }
    }

    /// Its name, as C has it.
    pub fn name(self) -> &'static str {
        self.text().0
    }
}

/// ```
/// assert_eq!(eikelzwier::Refusal::Quota.to_string(), "EDQUOT (122): over the quota");
/// ```
impl fmt::Display for Refusal {
    fn fmt(&self, f: &mut fmt::Formatter<'_>) -> fmt::Result {
        let (name, what) = self.text();
        write!(f, "{name} ({}): {what}", self.number())
    }
}

impl Error for Refusal {}

/// A number that is no refusal's.
#[derive(Clone, Copy, PartialEq, Eq, Debug)]
pub struct UnknownNumber(pub u8);

impl fmt::Display for UnknownNumber {
    fn fmt(&self, f: &mut fmt::Formatter<'_>) -> fmt::Result {
        write!(f, "{} is no refusal's number", self.0)
    }
}

impl Error for UnknownNumber {}

/// ```
/// use eikelzwier::{Refusal, UnknownNumber};
/// assert_eq!(Refusal::try_from(113), Ok(Refusal::Destroyed));
/// assert_eq!(Refusal::try_from(0), Err(UnknownNumber(0)));
/// ```
impl TryFrom<u8> for Refusal {
    type Error = UnknownNumber;

    fn try_from(number: u8) -> Result<Refusal, UnknownNumber> {
        Refusal::from_number(number).ok_or(UnknownNumber(number))
    }
}
