//! The refusal numbers.

/// Why a command was refused; the discriminant is the number answered.
#[derive(Clone, Copy, PartialEq, Eq, Debug)]
#[repr(u8)]
pub enum Refusal {
    /// EPERM: not the owner, or release of a live node's pinned owner handle.
    NotPermitted = 1,
    /// ENXIO: an ID the acting peer does not hold.
    NoHandle = 6,
    /// EBADF: a peer never opened.
    NeverOpened = 9,
    /// EAGAIN: nothing queued, or no seed set.
    NothingQueued = 11,
    /// EEXIST: open of an open peer, or create with an ID the peer holds.
    Exists = 17,
    /// EINVAL: a frame or answer buffer of the wrong form.
    Invalid = 22,
    /// ENOTTY: command byte unknown.
    UnknownCommand = 25,
    /// ENOSPC: create with 16 nodes counted.
    NoRoom = 28,
    /// ERANGE: the next message, or the seed, is over the room offered.
    OverRoom = 34,
    /// EOVERFLOW: 2^40 - 1 commands accepted already.
    Overflow = 75,
    /// EMSGSIZE: send with too many destinations, handles or bytes.
    TooLarge = 90,
    /// ESHUTDOWN: a peer that has disconnected.
    Disconnected = 108,
    /// EHOSTUNREACH: a node already destroyed.
    Destroyed = 113,
    /// EDQUOT: quota.
    Quota = 122,
}

impl Refusal {
    /// The number answered.
    pub fn number(self) -> u8 {
        self as u8
    }
}
