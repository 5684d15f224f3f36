//! A method for each command, over its frame and its answer (docs/WIRE.md).

use crate::{Outcome, Refusal, ANSWER_LEN, MAX_FRAME};

/// A peer, 0 to 7.
#[derive(Clone, Copy, PartialEq, Eq, PartialOrd, Ord, Hash, Debug)]
pub struct Peer(pub u8);

/// A user, 0 to 3.
#[derive(Clone, Copy, PartialEq, Eq, PartialOrd, Ord, Hash, Debug)]
pub struct User(pub u8);

/// The ID of a handle: a peer's name for a node. Another peer knows the same
/// node by another ID.
#[derive(Clone, Copy, PartialEq, Eq, PartialOrd, Ord, Hash, Debug)]
pub struct HandleId(pub u64);

impl HandleId {
    /// Shown for an attached handle whose node was destroyed before the message
    /// was sent, or is the receiver's own, destroyed and let go; of a seed,
    /// destroyed before now.
    pub const INVALID: HandleId = HandleId(u64::MAX);

    fn read(bytes: &[u8]) -> HandleId {
        HandleId(
            bytes[..8]
                .iter()
                .fold(0, |id, byte| id << 8 | u64::from(*byte)),
        )
    }
}

/// The most destinations of a send.
pub const MAX_DESTINATIONS: usize = 8;
/// The most attached handles of a send.
pub const MAX_HANDLES: usize = 8;
/// The most bytes of payload of a send.
pub const MAX_PAYLOAD: usize = 512;
/// A receive with this room takes out every message, and every seed is shown.
pub const MAX_ROOM: u16 = 576;

/// What a receive took out. It stands in the answer buffer.
#[derive(Clone, Copy, PartialEq, Eq, Debug)]
pub enum Received<'a> {
    /// A message for a node of the receiver.
    Message(Message<'a>),
    /// A node to which the receiver holds a handle was destroyed.
    Destroyed(HandleId),
    /// Nobody but the receiver, its owner, has a reference to the node any more.
    Released(HandleId),
}

/// A message that was received.
#[derive(Clone, Copy, PartialEq, Eq, Debug)]
pub struct Message<'a> {
    /// The node, by the receiver's own ID.
    pub to: HandleId,
    /// The sender's user.
    pub user: User,
    /// Whether another message of the same send waits behind it in this queue.
    pub more: bool,
    /// The attached handles, by the receiver's IDs.
    pub handles: Handles<'a>,
    /// The payload.
    pub payload: &'a [u8],
}

/// The message that a peer keeps for itself. It stands in the answer buffer.
#[derive(Clone, Copy, PartialEq, Eq, Debug)]
pub struct Seed<'a> {
    /// The peer's own user.
    pub user: User,
    /// The attached handles, by the peer's IDs of now.
    pub handles: Handles<'a>,
    /// The payload.
    pub payload: &'a [u8],
}

/// The attached handles of a message or a seed, in order.
#[derive(Clone, Copy, PartialEq, Eq, Debug)]
pub struct Handles<'a>(&'a [u8]);

impl<'a> Handles<'a> {
    /// How many there are.
    pub fn len(self) -> usize {
        self.0.len() / 8
    }

    /// Whether there are none.
    pub fn is_empty(self) -> bool {
        self.0.is_empty()
    }

    /// Each of them, or [`HandleId::INVALID`] in its place.
    pub fn iter(self) -> impl ExactSizeIterator<Item = HandleId> + 'a {
        self.0.chunks_exact(8).map(HandleId::read)
    }
}

/// What a user has queued at a peer, and what is left of its share there. What
/// is left may be below zero, where others have queued since.
#[derive(Clone, Copy, PartialEq, Eq, Debug)]
pub struct Quota {
    /// Messages queued.
    pub messages: u16,
    /// Bytes of payload queued.
    pub bytes: u16,
    /// Attached handles queued.
    pub handles: u16,
    /// Messages left.
    pub messages_left: i16,
    /// Bytes of payload left.
    pub bytes_left: i16,
    /// Attached handles left.
    pub handles_left: i16,
}

/// The peers that hold a handle to a node.
#[derive(Clone, Copy, PartialEq, Eq, Hash, Debug)]
pub struct Holders(pub u8);

impl Holders {
    /// Whether the peer does.
    pub fn contains(self, peer: Peer) -> bool {
        peer.0 < 8 && self.0 >> peer.0 & 1 == 1
    }

    /// How many do.
    pub fn count(self) -> u32 {
        self.0.count_ones()
    }
}

const OPEN: u8 = 0x01;
const DISCONNECT: u8 = 0x02;
const CREATE: u8 = 0x03;
const DESTROY: u8 = 0x04;
const RELEASE: u8 = 0x05;
const TRANSFER: u8 = 0x06;
const SEND: u8 = 0x07;
const RECEIVE: u8 = 0x08;
const QUOTA: u8 = 0x09;
const HOLDERS: u8 = 0x0a;
const SHOW_SEED: u8 = 0x0c;

fn short(bytes: &[u8]) -> u16 {
    u16::from_be_bytes([bytes[0], bytes[1]])
}

fn with_id(command: u8, peer: Peer, id: HandleId) -> [u8; 10] {
    let [a, b, c, d, e, f, g, h] = id.0.to_be_bytes();
    [command, peer.0, a, b, c, d, e, f, g, h]
}

/// The frame of a send, or without destination of a seed, in the buffer, and its length; `None` where a list or the
/// payload is over its limit.
fn build_send(
    frame: &mut [u8; MAX_FRAME],
    peer: Peer,
    to: &[HandleId],
    handles: &[HandleId],
    payload: &[u8],
) -> Option<usize> {
    if to.len() > MAX_DESTINATIONS || handles.len() > MAX_HANDLES || payload.len() > MAX_PAYLOAD {
        return None;
    }
    let [high, low] = (payload.len() as u16).to_be_bytes();
    let head = [SEND, peer.0, to.len() as u8, handles.len() as u8, high, low];
    frame[..6].copy_from_slice(&head);
    let mut at = 6;
    for id in to.iter().chain(handles) {
        frame[at..at + 8].copy_from_slice(&id.0.to_be_bytes());
        at += 8;
    }
    frame[at..at + payload.len()].copy_from_slice(payload);
    Some(at + payload.len())
}

/// Handles and payload of an answer with a message's fields, behind its first byte.
fn read_contents(answer: &[u8]) -> (Handles<'_>, &[u8]) {
    let (handles, payload) = answer[14..].split_at(8 * usize::from(answer[13]));
    (Handles(handles), payload)
}

/// An answer to a receive, behind its first byte.
fn read_received(answer: &[u8]) -> Received<'_> {
    let id = HandleId::read(&answer[1..9]);
    match answer[0] {
        1 => {
            let (handles, payload) = read_contents(answer);
            Received::Message(Message {
                to: id,
                user: User(answer[9]),
                more: answer[10] == 1,
                handles,
                payload,
            })
        }
        2 => Received::Destroyed(id),
        _ => Received::Released(id),
    }
}

/// Runs the frame; the length of its answer.
fn run<B: Commands + ?Sized>(
    bus: &mut B,
    frame: &[u8],
    answer: &mut [u8],
) -> Result<usize, Refusal> {
    let outcome = bus.command(frame, answer);
    match outcome.number {
        0 => Ok(outcome.len),
        // Every number that a bus answers is a refusal's.
        number => Err(Refusal::from_number(number).unwrap_or(Refusal::Damaged)),
    }
}

/// The eleven commands as methods, and the send that sets a seed as one of its own. [`Bus`](crate::Bus), [`InlineBus`](crate::InlineBus)
/// and a bus [with a journal](crate::Kept) have them.
///
/// Peers, users and handle IDs are three types, so that none stands in the place
/// of another. A refused command changes nothing.
///
/// ```
/// use eikelzwier::{Bus, Commands, HandleId, Peer, Received, Refusal, User, ANSWER_LEN};
///
/// let (owner, sender) = (Peer(0), Peer(1));
/// let mut bus = Bus::new();
/// bus.open(owner, User(0))?;
/// bus.open(sender, User(1))?;
///
/// bus.create(owner, HandleId(8))?;
/// let there = bus.transfer(owner, HandleId(8), sender)?;
/// assert_eq!(there, HandleId(7));
/// bus.send(sender, &[there], &[], b"3")?;
///
/// let mut answer = [0; ANSWER_LEN];
/// let Some(Received::Message(message)) = bus.receive(owner, &mut answer)? else {
///     panic!("a message is queued")
/// };
/// assert_eq!((message.to, message.user), (HandleId(8), User(1)));
/// assert_eq!(message.payload, b"3");
/// assert_eq!(bus.receive(owner, &mut answer)?, None);
///
/// assert_eq!(bus.create(owner, HandleId(6)), Err(Refusal::Invalid));
/// # Ok::<(), Refusal>(())
/// ```
pub trait Commands {
    /// Carries out one frame of bytes; the answer is written to the front of
    /// the answer buffer.
    fn command(&mut self, frame: &[u8], answer: &mut [u8]) -> Outcome;

    /// Opens a peer for a user.
    fn open(&mut self, peer: Peer, user: User) -> Result<(), Refusal> {
        run(self, &[OPEN, peer.0, user.0], &mut [0; ANSWER_LEN]).map(|_| ())
    }

    /// Disconnects a peer for good: its queue and its seed are dropped, its nodes
    /// are destroyed, its handles released.
    fn disconnect(&mut self, peer: Peer) -> Result<(), Refusal> {
        run(self, &[DISCONNECT, peer.0], &mut [0; ANSWER_LEN]).map(|_| ())
    }

    /// Creates a node under an ID of the peer's choice, its two lowest bits
    /// clear.
    fn create(&mut self, peer: Peer, node: HandleId) -> Result<(), Refusal> {
        run(self, &with_id(CREATE, peer, node), &mut [0; ANSWER_LEN]).map(|_| ())
    }

    /// Destroys a node of the peer's own. Every holder is told.
    fn destroy(&mut self, peer: Peer, node: HandleId) -> Result<(), Refusal> {
        run(self, &with_id(DESTROY, peer, node), &mut [0; ANSWER_LEN]).map(|_| ())
    }

    /// Releases one reference. At none the handle is gone.
    fn release(&mut self, peer: Peer, handle: HandleId) -> Result<(), Refusal> {
        run(self, &with_id(RELEASE, peer, handle), &mut [0; ANSWER_LEN]).map(|_| ())
    }

    /// Gives another peer a reference; its ID there.
    fn transfer(&mut self, peer: Peer, handle: HandleId, to: Peer) -> Result<HandleId, Refusal> {
        let mut frame = [to.0; 11];
        frame[..10].copy_from_slice(&with_id(TRANSFER, peer, handle));
        let mut answer = [0; ANSWER_LEN];
        run(self, &frame, &mut answer).map(|_| HandleId::read(&answer[1..]))
    }

    /// Sends a message to each destination, or to none if one of them refuses it.
    /// An empty list of destinations is refused here with 22, since its frame
    /// would set the seed; a list or a payload over its limit with 90; both before
    /// the bus tests anything.
    ///
    /// ```
    /// use eikelzwier::{Bus, Commands, HandleId, Peer, Refusal, MAX_PAYLOAD};
    ///
    /// let mut bus = Bus::new();
    /// let long = [0; MAX_PAYLOAD + 1];
    /// assert_eq!(bus.send(Peer(0), &[HandleId(8)], &[], &long), Err(Refusal::TooLarge));
    /// assert_eq!(bus.send(Peer(0), &[], &[], &[]), Err(Refusal::Invalid));
    /// ```
    fn send(
        &mut self,
        peer: Peer,
        to: &[HandleId],
        handles: &[HandleId],
        payload: &[u8],
    ) -> Result<(), Refusal> {
        if to.is_empty() {
            return Err(Refusal::Invalid);
        }
        let mut frame = [0; MAX_FRAME];
        let len = build_send(&mut frame, peer, to, handles, payload).ok_or(Refusal::TooLarge)?;
        run(self, &frame[..len], &mut [0; ANSWER_LEN]).map(|_| ())
    }

    /// Replaces the peer's seed: a message that it keeps for itself, charged to
    /// nobody. It stays until it is replaced or the peer disconnects. The sizes
    /// are tested as in a send.
    ///
    /// ```
    /// use eikelzwier::{Bus, Commands, HandleId, Peer, User, ANSWER_LEN};
    ///
    /// let (lamp, mut answer) = (Peer(3), [0; ANSWER_LEN]);
    /// let mut bus = Bus::new();
    /// bus.open(lamp, User(1))?;
    /// bus.create(lamp, HandleId(8))?;
    /// bus.set_seed(lamp, &[HandleId(8)], b"oil")?;
    ///
    /// let seed = bus.show_seed(lamp, &mut answer)?.expect("it was set");
    /// assert_eq!((seed.user, seed.payload), (User(1), &b"oil"[..]));
    /// assert!(seed.handles.iter().eq([HandleId(8)]));
    /// # Ok::<(), eikelzwier::Refusal>(())
    /// ```
    fn set_seed(
        &mut self,
        peer: Peer,
        handles: &[HandleId],
        payload: &[u8],
    ) -> Result<(), Refusal> {
        let mut frame = [0; MAX_FRAME];
        let len = build_send(&mut frame, peer, &[], handles, payload).ok_or(Refusal::TooLarge)?;
        run(self, &frame[..len], &mut [0; ANSWER_LEN]).map(|_| ())
    }

    /// Shows the peer's seed and leaves it where it is; `None` if none is set. Each
    /// time it adds a reference for each handle shown, as a receive does. It
    /// stands in the answer buffer, of at least [`ANSWER_LEN`] bytes.
    fn show_seed<'a>(
        &mut self,
        peer: Peer,
        answer: &'a mut [u8],
    ) -> Result<Option<Seed<'a>>, Refusal> {
        self.show_seed_within(peer, MAX_ROOM, answer)
    }

    /// As [`show_seed`](Commands::show_seed), but a seed whose payload and
    /// handles, of 8 bytes each, are over the room is refused.
    fn show_seed_within<'a>(
        &mut self,
        peer: Peer,
        room: u16,
        answer: &'a mut [u8],
    ) -> Result<Option<Seed<'a>>, Refusal> {
        let [high, low] = room.to_be_bytes();
        match run(self, &[SHOW_SEED, peer.0, high, low], answer) {
            Ok(len) => {
                let (handles, payload) = read_contents(&answer[1..len]);
                Ok(Some(Seed {
                    user: User(answer[10]),
                    handles,
                    payload,
                }))
            }
            Err(Refusal::NothingQueued) => Ok(None),
            Err(refusal) => Err(refusal),
        }
    }

    /// Takes the oldest entry out of the peer's queue; `None` if there is none.
    /// What it is stands in the answer buffer, of at least [`ANSWER_LEN`] bytes.
    fn receive<'a>(
        &mut self,
        peer: Peer,
        answer: &'a mut [u8],
    ) -> Result<Option<Received<'a>>, Refusal> {
        self.receive_within(peer, MAX_ROOM, answer)
    }

    /// As [`receive`](Commands::receive), but a message whose payload and
    /// handles, of 8 bytes each, are over the room is refused and stays queued.
    fn receive_within<'a>(
        &mut self,
        peer: Peer,
        room: u16,
        answer: &'a mut [u8],
    ) -> Result<Option<Received<'a>>, Refusal> {
        let [high, low] = room.to_be_bytes();
        match run(self, &[RECEIVE, peer.0, high, low], answer) {
            Ok(len) => Ok(Some(read_received(&answer[1..len]))),
            Err(Refusal::NothingQueued) => Ok(None),
            Err(refusal) => Err(refusal),
        }
    }

    /// What a user has queued at the peer, and what is left.
    ///
    /// ```
    /// use eikelzwier::{Bus, Commands, Peer, User};
    ///
    /// let mut bus = Bus::new();
    /// bus.open(Peer(0), User(0))?;
    /// let quota = bus.quota(Peer(0), User(3))?;
    /// assert_eq!((quota.messages, quota.messages_left), (0, 32));
    /// # Ok::<(), eikelzwier::Refusal>(())
    /// ```
    fn quota(&mut self, peer: Peer, user: User) -> Result<Quota, Refusal> {
        let mut answer = [0; ANSWER_LEN];
        run(self, &[QUOTA, peer.0, user.0], &mut answer).map(|_| Quota {
            messages: short(&answer[1..]),
            bytes: short(&answer[3..]),
            handles: short(&answer[5..]),
            messages_left: short(&answer[7..]) as i16,
            bytes_left: short(&answer[9..]) as i16,
            handles_left: short(&answer[11..]) as i16,
        })
    }

    /// Who holds a handle to a node of the peer's own.
    ///
    /// ```
    /// use eikelzwier::{Bus, Commands, HandleId, Peer, User};
    ///
    /// let mut bus = Bus::new();
    /// bus.open(Peer(0), User(0))?;
    /// bus.create(Peer(0), HandleId(8))?;
    /// let holders = bus.holders(Peer(0), HandleId(8))?;
    /// assert!(holders.contains(Peer(0)) && holders.count() == 1);
    /// # Ok::<(), eikelzwier::Refusal>(())
    /// ```
    fn holders(&mut self, peer: Peer, node: HandleId) -> Result<Holders, Refusal> {
        let mut answer = [0; ANSWER_LEN];
        run(self, &with_id(HOLDERS, peer, node), &mut answer).map(|_| Holders(answer[1]))
    }
}
