//! Peer, user and handle numbers: three types, so that they cannot be mixed.

/// A peer, 0 to 7.
#[derive(Clone, Copy, PartialEq, Eq, Debug)]
pub struct Peer(u8);

impl Peer {
    /// How many peers there are.
    pub const COUNT: usize = 8;

    /// The peer of this number, if it is at most 7.
    pub fn new(number: u8) -> Option<Peer> {
        (usize::from(number) < Self::COUNT).then_some(Peer(number))
    }

    /// All peers, ascending.
    pub fn all() -> impl Iterator<Item = Peer> {
        (0..8).map(Peer)
    }

    /// Its number.
    pub fn number(self) -> u8 {
        self.0
    }

    /// Its place in a table of eight.
    #[inline]
    pub(crate) fn index(self) -> usize {
        usize::from(self.0 & 7)
    }

    /// Its bit in a byte of holders.
    #[inline]
    pub(crate) fn bit(self) -> u8 {
        1 << (self.0 & 7)
    }
}

/// A user, 0 to 3.
#[derive(Clone, Copy, PartialEq, Eq, Debug)]
pub struct User(u8);

impl User {
    /// How many users there are.
    pub const COUNT: usize = 4;

    /// The user of this number, if it is at most 3.
    pub fn new(number: u8) -> Option<User> {
        (usize::from(number) < Self::COUNT).then_some(User(number))
    }

    /// Its number.
    pub fn number(self) -> u8 {
        self.0
    }

    /// Its place in a table of four.
    #[inline]
    pub(crate) fn index(self) -> usize {
        usize::from(self.0 & 3)
    }
}

/// A handle's ID at one peer.
#[derive(Clone, Copy, PartialEq, Eq, PartialOrd, Ord, Debug)]
pub struct HandleId(pub u64);

impl HandleId {
    /// Shown for an attached handle whose node was destroyed before its message;
    /// never held.
    pub const INVALID: HandleId = HandleId(u64::MAX);

    /// The ID in eight big-endian bytes.
    #[inline]
    pub fn from_bytes(bytes: [u8; 8]) -> HandleId {
        HandleId(u64::from_be_bytes(bytes))
    }

    /// Its eight big-endian bytes.
    #[inline]
    pub fn to_bytes(self) -> [u8; 8] {
        self.0.to_be_bytes()
    }

    /// The `n`-th ID that the bus gives at a peer.
    #[inline]
    pub fn given(n: u64) -> HandleId {
        HandleId(4 * n + 3)
    }

    /// Whether an owner may choose it: bits 0 (managed) and 1 (remote) clear.
    #[inline]
    pub fn can_be_chosen(self) -> bool {
        self.0 & 3 == 0
    }
}
