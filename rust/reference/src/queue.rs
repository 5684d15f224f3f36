//! A peer's queue of messages and notices, oldest first.
//!
//! A doubly linked list over fixed places, so that an entry is put at the end,
//! taken from the front or withdrawn from the middle in constant time. Places
//! 0 to 63 are messages; place 64 + x is the notice about node x, of which a
//! peer never has two; the last place is the list's root.

use crate::bus::{NodeIndex, NODES};
use crate::frame::{MAX_ATTACHED, MAX_PAYLOAD};
use crate::ids::User;
use crate::quota::{Charge, LIMITS};

const MESSAGES: usize = LIMITS.messages as usize;
const ROOT: u8 = (MESSAGES + NODES) as u8;

/// What a notice tells.
#[derive(Clone, Copy, PartialEq, Eq, Debug)]
pub(crate) enum Notice {
    /// The node was destroyed.
    Destroyed,
    /// Nobody but the owner has a reference any more.
    Released,
}

/// The place of a queued message.
#[derive(Clone, Copy, PartialEq, Eq, Debug)]
pub(crate) struct MessageIndex(u8);

/// An entry of the queue.
#[derive(Clone, Copy, PartialEq, Eq, Debug)]
pub(crate) enum Entry {
    Message(MessageIndex),
    Notice(Notice, NodeIndex),
}

/// A queued message.
#[derive(Clone)]
pub(crate) struct Message {
    /// Which send it belongs to: no two accepted commands have the same number,
    /// and a later one has a higher.
    pub(crate) send: u64,
    /// The sender's user.
    pub(crate) user: User,
    /// The node it is for.
    pub(crate) destination: NodeIndex,
    payload_len: u16,
    attached_len: u8,
    attached: [NodeIndex; MAX_ATTACHED],
    payload: [u8; MAX_PAYLOAD],
}

impl Message {
    /// The nodes of the attached handles.
    #[inline]
    pub(crate) fn attached(&self) -> &[NodeIndex] {
        &self.attached[..usize::from(self.attached_len)]
    }

    #[inline]
    pub(crate) fn payload(&self) -> &[u8] {
        &self.payload[..usize::from(self.payload_len)]
    }

    /// What it is charged.
    #[inline]
    pub(crate) fn charge(&self) -> Charge {
        Charge::of_message(self.payload_len, u16::from(self.attached_len))
    }

    /// The room its receiver needs.
    #[inline]
    pub(crate) fn room(&self) -> u16 {
        self.payload_len + 8 * u16::from(self.attached_len)
    }
}

#[derive(Clone, Copy)]
struct Link {
    before: u8,
    after: u8,
}

/// One peer's queue.
#[derive(Clone)]
pub(crate) struct Queue {
    links: Box<[Link; MESSAGES + NODES + 1]>,
    messages: Vec<Message>,
    /// Message places not in use; the last one is used next.
    free: Vec<u8>,
    notices: [Option<Notice>; NODES],
}

impl Queue {
    pub(crate) fn new(user: User) -> Queue {
        let empty = Message {
            send: 0,
            user,
            destination: NodeIndex::FIRST,
            payload_len: 0,
            attached_len: 0,
            attached: [NodeIndex::FIRST; MAX_ATTACHED],
            payload: [0; MAX_PAYLOAD],
        };
        Queue {
            links: Box::new(
                [Link {
                    before: ROOT,
                    after: ROOT,
                }; MESSAGES + NODES + 1],
            ),
            messages: vec![empty; MESSAGES],
            free: (0..MESSAGES as u8).rev().collect(),
            notices: [None; NODES],
        }
    }

    #[inline]
    fn entry(&self, place: u8) -> Option<Entry> {
        if place == ROOT {
            return None;
        }
        if usize::from(place) < MESSAGES {
            return Some(Entry::Message(MessageIndex(place)));
        }
        let node = NodeIndex::new(usize::from(place) - MESSAGES);
        self.notices[node.index()].map(|notice| Entry::Notice(notice, node))
    }

    /// The oldest entry.
    #[inline]
    pub(crate) fn front(&self) -> Option<Entry> {
        self.entry(self.links[usize::from(ROOT)].after)
    }

    /// Every entry, oldest first.
    pub(crate) fn iter(&self) -> impl Iterator<Item = Entry> + '_ {
        let mut place = ROOT;
        std::iter::from_fn(move || {
            place = self.links[usize::from(place)].after;
            self.entry(place)
        })
    }

    #[inline]
    pub(crate) fn message(&self, index: MessageIndex) -> &Message {
        &self.messages[usize::from(index.0)]
    }

    /// Whether another message of the same send is queued behind this one.
    /// Messages of one send stand side by side: they were queued together,
    /// and nothing is ever put between.
    #[inline]
    pub(crate) fn sibling_behind(&self, index: MessageIndex) -> bool {
        let after = self.links[usize::from(index.0)].after;
        usize::from(after) < MESSAGES
            && self.message(MessageIndex(after)).send == self.message(index).send
    }

    #[inline]
    fn link_last(&mut self, place: u8) {
        let last = self.links[usize::from(ROOT)].before;
        self.links[usize::from(place)] = Link {
            before: last,
            after: ROOT,
        };
        self.links[usize::from(last)].after = place;
        self.links[usize::from(ROOT)].before = place;
    }

    #[inline]
    fn unlink(&mut self, place: u8) {
        let Link { before, after } = self.links[usize::from(place)];
        self.links[usize::from(before)].after = after;
        self.links[usize::from(after)].before = before;
    }

    /// Queues a message. The quota has left room for it.
    #[inline]
    pub(crate) fn push_message(
        &mut self,
        send: u64,
        user: User,
        destination: NodeIndex,
        attached: &[NodeIndex],
        payload: &[u8],
    ) {
        let place = self.free.pop().expect("the quota keeps to the limit");
        let message = &mut self.messages[usize::from(place)];
        message.send = send;
        message.user = user;
        message.destination = destination;
        message.payload_len = payload.len() as u16;
        message.attached_len = attached.len() as u8;
        message.attached[..attached.len()].copy_from_slice(attached);
        message.payload[..payload.len()].copy_from_slice(payload);
        self.link_last(place);
    }

    /// Takes a message out. Its contents stay readable until the next push.
    #[inline]
    pub(crate) fn remove_message(&mut self, index: MessageIndex) -> &Message {
        self.unlink(index.0);
        self.free.push(index.0);
        self.message(index)
    }

    /// Queues a notice about a node that has none here.
    #[inline]
    pub(crate) fn push_notice(&mut self, notice: Notice, node: NodeIndex) {
        debug_assert!(self.notices[node.index()].is_none());
        self.notices[node.index()] = Some(notice);
        self.link_last((MESSAGES + node.index()) as u8);
    }

    /// Takes out the notice about a node, if there is one.
    #[inline]
    pub(crate) fn remove_notice(&mut self, node: NodeIndex) {
        if self.notices[node.index()].take().is_some() {
            self.unlink((MESSAGES + node.index()) as u8);
        }
    }
}
