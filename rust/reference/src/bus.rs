//! The bus: nodes, handles, queues, seeds, and the eleven commands.

use crate::frame::{Command, Send, MAX_ATTACHED, MAX_DESTINATIONS, MAX_PAYLOAD};
use crate::handles::HandleTable;
use crate::ids::{HandleId, Peer, User};
use crate::queue::{Entry, MessageIndex, Notice, Queue};
use crate::quota::{Charge, Charges};
use crate::refusal::Refusal;

/// Bytes of the longest answer; an answer buffer has at least so many.
pub const ANSWER_LEN: usize = 15 + 8 * MAX_ATTACHED + MAX_PAYLOAD;

/// Nodes that count against one owner, at most.
const NODES_PER_PEER: usize = 16;
/// Nodes on the bus, at most.
pub(crate) const NODES: usize = Peer::COUNT * NODES_PER_PEER;
/// Commands accepted, at most.
const MAX_ACCEPTED: u64 = (1 << 40) - 1;

/// What [`Bus::command`] returns.
#[derive(Clone, Copy, PartialEq, Eq, Debug)]
pub struct Outcome {
    /// 0, or the number of the refusal.
    pub number: u8,
    /// How many bytes of the answer buffer were written.
    pub len: usize,
}

/// A handle as [`Bus::handles`] shows it.
#[derive(Clone, Copy, PartialEq, Eq, Debug)]
pub struct HandleView {
    /// Its ID at the holder.
    pub id: HandleId,
    /// The holder's count of references.
    pub count: u64,
    /// The sum of counts over all peers.
    pub sum: u64,
    /// The node's owner.
    pub owner: Peer,
    /// Whether the node still lives.
    pub live: bool,
    /// Whether a queued message carries it as it was before its destruction.
    pub carried: bool,
}

/// The room of a node: owner p's are 16p to 16p + 15.
#[derive(Clone, Copy, PartialEq, Eq, Debug)]
pub(crate) struct NodeIndex(u8);

impl NodeIndex {
    pub(crate) const FIRST: NodeIndex = NodeIndex(0);

    #[inline]
    pub(crate) fn new(index: usize) -> NodeIndex {
        NodeIndex(index as u8)
    }

    #[inline]
    pub(crate) fn index(self) -> usize {
        usize::from(self.0) % NODES
    }
}

/// One peer's handle to a node; count 0 is no handle.
#[derive(Clone, Copy)]
struct Handle {
    id: HandleId,
    count: u64,
}

#[derive(Clone, Copy)]
struct Node {
    owner: Peer,
    owner_id: HandleId,
    live: bool,
    /// The number of the command that destroyed it, once it is dead.
    died: u64,
    /// Bit p is set if peer p holds a handle.
    holders: u8,
    /// The sum of counts over all peers.
    sum: u64,
    /// How often queued messages, as destination or attached, and seeds name it.
    named: u32,
    /// How many queued messages are for it.
    messages: u32,
    /// For each peer how many places of the messages queued there carry it as it
    /// was before its destruction; all that carry it while it lives.
    brought: [u32; Peer::COUNT],
    handles: [Handle; Peer::COUNT],
}

impl Node {
    fn unused(owner: Peer) -> Node {
        Node {
            owner,
            owner_id: HandleId::INVALID,
            live: false,
            died: 0,
            holders: 0,
            sum: 0,
            named: 0,
            messages: 0,
            brought: [0; Peer::COUNT],
            handles: [Handle {
                id: HandleId::INVALID,
                count: 0,
            }; Peer::COUNT],
        }
    }

    /// Whether it counts against its owner; if not, its room is free.
    fn counts(&self) -> bool {
        self.live || self.holders != 0 || self.named != 0
    }

    #[inline]
    fn is_held_by(&self, peer: Peer) -> bool {
        self.holders & peer.bit() != 0
    }

    /// Whether it was not yet destroyed when the command of this number was
    /// carried out. Each accepted command has a higher number than the last.
    #[inline]
    fn lived_at(&self, number: u64) -> bool {
        self.live || number < self.died
    }

    /// Whether a peer is told of its destruction: it holds the node, or a
    /// message that was queued before will bring it.
    fn concerns(&self, peer: Peer) -> bool {
        self.is_held_by(peer) || self.brought[peer.index()] != 0
    }
}

#[derive(Clone, Copy, PartialEq, Eq, Debug)]
enum State {
    NeverOpened,
    Open,
    Disconnected,
}

/// The message a peer keeps for itself (document 02, No. 1).
#[derive(Clone)]
struct Seed {
    /// The nodes of the attached handles.
    attached: Vec<NodeIndex>,
    payload: Vec<u8>,
}

#[derive(Clone)]
struct PeerState {
    state: State,
    /// Its user, once opened.
    user: User,
    /// How many IDs the bus has given here.
    given: u64,
    handles: HandleTable,
    queue: Queue,
    charges: Charges,
    seed: Option<Seed>,
}

/// A message bus of eight peers.
#[derive(Clone)]
pub struct Bus {
    accepted: u64,
    peers: Vec<PeerState>,
    nodes: Box<[Node; NODES]>,
}

impl Default for Bus {
    fn default() -> Bus {
        Bus::new()
    }
}

/// Writes an answer from the front; its first byte is 00.
struct Answer<'a> {
    buffer: &'a mut [u8; ANSWER_LEN],
    len: usize,
}

impl<'a> Answer<'a> {
    #[inline]
    fn accepted(buffer: &'a mut [u8; ANSWER_LEN]) -> Answer<'a> {
        buffer[0] = 0;
        Answer { buffer, len: 1 }
    }

    #[inline]
    fn byte(&mut self, byte: u8) {
        self.buffer[self.len] = byte;
        self.len += 1;
    }

    #[inline]
    fn bytes(&mut self, bytes: &[u8]) {
        self.buffer[self.len..self.len + bytes.len()].copy_from_slice(bytes);
        self.len += bytes.len();
    }

    #[inline]
    fn id(&mut self, id: HandleId) {
        self.bytes(&id.to_bytes());
    }
}

impl Bus {
    /// A fresh bus: no peer opened.
    pub fn new() -> Bus {
        let user = User::new(0).expect("0 is a user");
        let mut nodes = Box::new([Node::unused(Peer::new(0).expect("0 is a peer")); NODES]);
        for peer in Peer::all() {
            let first = peer.index() * NODES_PER_PEER;
            nodes[first..first + NODES_PER_PEER].fill(Node::unused(peer));
        }
        Bus {
            accepted: 0,
            peers: Peer::all()
                .map(|_| PeerState {
                    state: State::NeverOpened,
                    user,
                    given: 0,
                    handles: HandleTable::new(),
                    queue: Queue::new(user),
                    charges: Charges::default(),
                    seed: None,
                })
                .collect(),
            nodes,
        }
    }

    /// A fresh bus on which so many commands count as accepted.
    #[cfg(test)]
    pub(crate) fn with_accepted(accepted: u64) -> Bus {
        Bus {
            accepted,
            ..Bus::new()
        }
    }

    /// Carries out one frame and writes its answer to the front of the
    /// buffer; what lies past the answer is not touched. A buffer under
    /// [`ANSWER_LEN`] bytes is refused with 22 and nothing is written.
    #[inline]
    pub fn command(&mut self, frame: &[u8], answer: &mut [u8]) -> Outcome {
        let Some(buffer) = answer.first_chunk_mut::<ANSWER_LEN>() else {
            return Outcome {
                number: Refusal::Invalid.number(),
                len: 0,
            };
        };
        match self.answer(frame, buffer) {
            Ok(len) => Outcome { number: 0, len },
            Err(refusal) => {
                buffer[0] = refusal.number();
                Outcome {
                    number: refusal.number(),
                    len: 1,
                }
            }
        }
    }

    /// The user of an open peer.
    pub fn user(&self, peer: Peer) -> Option<User> {
        self.open_peer(peer).ok()
    }

    /// Whether a peer has set a seed.
    pub fn has_seed(&self, peer: Peer) -> bool {
        self.peer(peer).seed.is_some()
    }

    /// The handles a peer holds, by ascending ID.
    pub fn handles(&self, peer: Peer) -> Vec<HandleView> {
        let mut views: Vec<HandleView> = self
            .peer(peer)
            .handles
            .iter()
            .map(|(id, node)| {
                let node = self.node(node);
                HandleView {
                    id,
                    count: node.handles[peer.index()].count,
                    sum: node.sum,
                    owner: node.owner,
                    live: node.live,
                    carried: node.brought.iter().any(|places| *places != 0),
                }
            })
            .collect();
        views.sort_by_key(|view| view.id);
        views
    }

    /// How many entries are queued at a peer, messages and notices.
    pub fn queued(&self, peer: Peer) -> usize {
        self.peer(peer).queue.iter().count()
    }

    #[inline]
    fn peer(&self, peer: Peer) -> &PeerState {
        &self.peers[peer.index()]
    }

    #[inline]
    fn peer_mut(&mut self, peer: Peer) -> &mut PeerState {
        &mut self.peers[peer.index()]
    }

    #[inline]
    fn node(&self, node: NodeIndex) -> &Node {
        &self.nodes[node.index()]
    }

    #[inline]
    fn node_mut(&mut self, node: NodeIndex) -> &mut Node {
        &mut self.nodes[node.index()]
    }

    /// The user of the peer; EBADF, ESHUTDOWN.
    #[inline]
    fn open_peer(&self, peer: Peer) -> Result<User, Refusal> {
        let peer = self.peer(peer);
        match peer.state {
            State::NeverOpened => Err(Refusal::NeverOpened),
            State::Disconnected => Err(Refusal::Disconnected),
            State::Open => Ok(peer.user),
        }
    }

    /// The node that a peer's ID names; ENXIO.
    #[inline]
    fn find(&self, peer: Peer, id: HandleId) -> Result<NodeIndex, Refusal> {
        self.peer(peer).handles.find(id).ok_or(Refusal::NoHandle)
    }

    /// The answer's length, or the refusal. A refusal changes nothing.
    #[inline]
    fn answer(&mut self, frame: &[u8], buffer: &mut [u8; ANSWER_LEN]) -> Result<usize, Refusal> {
        let command = Command::parse(frame)?;
        match command {
            Command::Quota { peer, user } => return self.quota(peer, user, buffer),
            Command::Holders { peer, id } => return self.holders(peer, id, buffer),
            _ => {}
        }
        if self.accepted >= MAX_ACCEPTED {
            return Err(Refusal::Overflow);
        }
        let len = match command {
            Command::Send(send) if send.destinations.count() == 0 => self.set_seed(send, buffer)?,
            Command::Send(send) => self.send(send, buffer)?,
            Command::Receive { peer, room } => self.receive(peer, room, buffer)?,
            Command::Open { peer, user } => self.open(peer, user, buffer)?,
            Command::Disconnect { peer } => self.disconnect(peer, buffer)?,
            Command::Create { peer, id } => self.create(peer, id, buffer)?,
            Command::Destroy { peer, id } => self.destroy(peer, id, buffer)?,
            Command::Release { peer, id } => self.release(peer, id, buffer)?,
            Command::Transfer { peer, id, to } => self.transfer(peer, id, to, buffer)?,
            Command::ShowSeed { peer, room } => self.show_seed(peer, room, buffer)?,
            Command::Quota { .. } | Command::Holders { .. } => unreachable!("answered above"),
        };
        self.accepted += 1;
        Ok(len)
    }

    fn open(
        &mut self,
        peer: Peer,
        user: User,
        buffer: &mut [u8; ANSWER_LEN],
    ) -> Result<usize, Refusal> {
        let state = self.peer_mut(peer);
        match state.state {
            State::Disconnected => return Err(Refusal::Disconnected),
            State::Open => return Err(Refusal::Exists),
            State::NeverOpened => {}
        }
        state.state = State::Open;
        state.user = user;
        Ok(Answer::accepted(buffer).len)
    }

    fn disconnect(&mut self, peer: Peer, buffer: &mut [u8; ANSWER_LEN]) -> Result<usize, Refusal> {
        self.open_peer(peer)?;
        while let Some(entry) = self.peer(peer).queue.front() {
            match entry {
                Entry::Message(message) => self.drop_message(peer, message),
                Entry::Notice(_, node) => self.peer_mut(peer).queue.remove_notice(node),
            }
        }
        // Its handles by ascending owner ID: first its own live nodes are
        // destroyed, then all handles are released.
        let mut held: Vec<NodeIndex> = self.peer(peer).handles.iter().map(|(_, n)| n).collect();
        held.sort_unstable_by_key(|node| self.node(*node).owner_id);
        for &node in &held {
            if self.node(node).owner == peer && self.node(node).live {
                self.destroy_node(node);
            }
        }
        for node in held {
            let count = self.node(node).handles[peer.index()].count;
            self.drop_references(node, peer, count);
        }
        self.replace_seed(peer, None);
        self.peer_mut(peer).state = State::Disconnected;
        Ok(Answer::accepted(buffer).len)
    }

    fn create(
        &mut self,
        peer: Peer,
        id: HandleId,
        buffer: &mut [u8; ANSWER_LEN],
    ) -> Result<usize, Refusal> {
        self.open_peer(peer)?;
        if self.peer(peer).handles.find(id).is_some() {
            return Err(Refusal::Exists);
        }
        let first = peer.index() * NODES_PER_PEER;
        let room = (first..first + NODES_PER_PEER)
            .find(|room| !self.nodes[*room].counts())
            .ok_or(Refusal::NoRoom)?;
        let node = &mut self.nodes[room];
        node.owner_id = id;
        node.live = true;
        node.holders = peer.bit();
        node.sum = 1;
        node.handles[peer.index()] = Handle { id, count: 1 };
        self.peer_mut(peer).handles.insert(id, NodeIndex::new(room));
        Ok(Answer::accepted(buffer).len)
    }

    fn destroy(
        &mut self,
        peer: Peer,
        id: HandleId,
        buffer: &mut [u8; ANSWER_LEN],
    ) -> Result<usize, Refusal> {
        self.open_peer(peer)?;
        let index = self.find(peer, id)?;
        let node = self.node(index);
        if node.owner != peer {
            return Err(Refusal::NotPermitted);
        }
        if !node.live {
            return Err(Refusal::Destroyed);
        }
        self.destroy_node(index);
        Ok(Answer::accepted(buffer).len)
    }

    fn release(
        &mut self,
        peer: Peer,
        id: HandleId,
        buffer: &mut [u8; ANSWER_LEN],
    ) -> Result<usize, Refusal> {
        self.open_peer(peer)?;
        let index = self.find(peer, id)?;
        let node = self.node(index);
        if node.live && node.owner == peer && node.handles[peer.index()].count == 1 {
            return Err(Refusal::NotPermitted);
        }
        self.drop_references(index, peer, 1);
        Ok(Answer::accepted(buffer).len)
    }

    fn transfer(
        &mut self,
        peer: Peer,
        id: HandleId,
        to: Peer,
        buffer: &mut [u8; ANSWER_LEN],
    ) -> Result<usize, Refusal> {
        self.open_peer(peer)?;
        self.open_peer(to)?;
        let index = self.find(peer, id)?;
        if !self.node(index).live {
            return Err(Refusal::Destroyed);
        }
        let shown = self.add_reference(index, to);
        let mut answer = Answer::accepted(buffer);
        answer.id(shown);
        Ok(answer.len)
    }

    #[inline]
    fn send(&mut self, send: Send, buffer: &mut [u8; ANSWER_LEN]) -> Result<usize, Refusal> {
        let user = self.open_peer(send.peer)?;

        let mut destinations = [NodeIndex::FIRST; MAX_DESTINATIONS];
        let destinations = &mut destinations[..send.destinations.count()];
        for (node, id) in destinations.iter_mut().zip(send.destinations.iter()) {
            *node = self.find(send.peer, id)?;
        }
        let mut attached = [NodeIndex::FIRST; MAX_ATTACHED];
        let attached = &mut attached[..send.attached.count()];
        for (node, id) in attached.iter_mut().zip(send.attached.iter()) {
            *node = self.find(send.peer, id)?;
        }

        if destinations.iter().any(|node| !self.node(*node).live) {
            return Err(Refusal::Destroyed);
        }

        // All places at one peer are tested together, at the first of them; each later
        // one tests those from it on, which are fewer.
        let charge = Charge::of_message(send.payload.len() as u16, attached.len() as u16);
        for (place, node) in destinations.iter().enumerate() {
            let owner = self.node(*node).owner;
            let behind = destinations[place..]
                .iter()
                .filter(|n| self.node(**n).owner == owner);
            let places = behind.count() as u16;
            if !self.peer(owner).charges.allow(user, charge.times(places)) {
                return Err(Refusal::Quota);
            }
        }

        let number = self.accepted;
        for &destination in destinations.iter() {
            let node = self.node_mut(destination);
            node.messages += 1;
            node.named += 1;
            let owner = node.owner;
            let state = self.peer_mut(owner);
            state.charges.charge(user, charge);
            state
                .queue
                .push_message(number, user, destination, attached, send.payload);
        }
        for &node in attached.iter() {
            self.node_mut(node).named += destinations.len() as u32;
            if self.node(node).live {
                for destination in destinations.iter() {
                    let owner = self.node(*destination).owner;
                    self.node_mut(node).brought[owner.index()] += 1;
                }
            }
        }
        Ok(Answer::accepted(buffer).len)
    }

    /// A send with no destinations. Nothing is queued, so there is no dead
    /// destination and no quota to test.
    fn set_seed(&mut self, send: Send, buffer: &mut [u8; ANSWER_LEN]) -> Result<usize, Refusal> {
        self.open_peer(send.peer)?;
        let attached = send.attached.iter().map(|id| self.find(send.peer, id));
        let seed = Seed {
            attached: attached.collect::<Result<_, _>>()?,
            payload: send.payload.to_vec(),
        };
        self.replace_seed(send.peer, Some(seed));
        Ok(Answer::accepted(buffer).len)
    }

    /// Sets or drops a peer's seed: the nodes of the new one are named by it,
    /// those of the old one no longer.
    fn replace_seed(&mut self, peer: Peer, seed: Option<Seed>) {
        for node in seed.iter().flat_map(|seed| &seed.attached) {
            self.nodes[node.index()].named += 1;
        }
        let old = std::mem::replace(&mut self.peer_mut(peer).seed, seed);
        for node in old.iter().flat_map(|seed| &seed.attached) {
            self.nodes[node.index()].named -= 1;
        }
    }

    /// Shows the peer's seed as a message that stays: its attached handles
    /// follow the receive rule each time, as of now, so that a seed shows the
    /// invalid ID from the destruction on.
    fn show_seed(
        &mut self,
        peer: Peer,
        room: u16,
        buffer: &mut [u8; ANSWER_LEN],
    ) -> Result<usize, Refusal> {
        let user = self.open_peer(peer)?;
        let seed = self.peer(peer).seed.clone();
        let seed = seed.ok_or(Refusal::NothingQueued)?;
        if seed.payload.len() + 8 * seed.attached.len() > usize::from(room) {
            return Err(Refusal::OverRoom);
        }
        let mut answer = Answer::accepted(buffer);
        answer.byte(4);
        answer.id(HandleId::INVALID);
        answer.byte(user.number());
        answer.byte(0);
        answer.bytes(&(seed.payload.len() as u16).to_be_bytes());
        answer.byte(seed.attached.len() as u8);
        let now = self.accepted;
        for node in seed.attached {
            answer.id(self.show_attached(node, peer, now));
        }
        answer.bytes(&seed.payload);
        Ok(answer.len)
    }

    #[inline]
    fn receive(
        &mut self,
        peer: Peer,
        room: u16,
        buffer: &mut [u8; ANSWER_LEN],
    ) -> Result<usize, Refusal> {
        self.open_peer(peer)?;
        match self.peer(peer).queue.front() {
            None => Err(Refusal::NothingQueued),
            Some(Entry::Notice(notice, node)) => {
                let mut answer = Answer::accepted(buffer);
                answer.byte(match notice {
                    Notice::Destroyed => 2,
                    Notice::Released => 3,
                });
                answer.id(self.node(node).handles[peer.index()].id);
                self.peer_mut(peer).queue.remove_notice(node);
                Ok(answer.len)
            }
            Some(Entry::Message(message)) => self.receive_message(peer, message, room, buffer),
        }
    }

    #[inline]
    fn receive_message(
        &mut self,
        peer: Peer,
        index: MessageIndex,
        room: u16,
        buffer: &mut [u8; ANSWER_LEN],
    ) -> Result<usize, Refusal> {
        let queue = &mut self.peers[peer.index()].queue;
        if queue.message(index).room() > room {
            return Err(Refusal::OverRoom);
        }
        let sibling = queue.sibling_behind(index);
        let message = queue.remove_message(index);
        let (user, charge, sent) = (message.user, message.charge(), message.send);
        let destination = &mut self.nodes[message.destination.index()];
        destination.messages -= 1;
        destination.named -= 1;

        let mut answer = Answer::accepted(buffer);
        answer.byte(1);
        answer.id(destination.owner_id);
        answer.byte(user.number());
        answer.byte(u8::from(sibling));
        answer.bytes(&charge.bytes.to_be_bytes());
        answer.byte(charge.handles as u8);

        let attached_len = message.attached().len();
        if attached_len == 0 {
            answer.bytes(message.payload());
        } else {
            let mut attached = [NodeIndex::FIRST; MAX_ATTACHED];
            let attached = &mut attached[..attached_len];
            attached.copy_from_slice(message.attached());
            for &mut node in attached {
                self.carry_no_more(node, peer, sent);
                answer.id(self.show_attached(node, peer, sent));
                self.settle_notice(node, peer);
            }
            answer.bytes(self.peer(peer).queue.message(index).payload());
        }
        self.peer_mut(peer).charges.discharge(user, charge);
        Ok(answer.len)
    }

    fn quota(
        &self,
        peer: Peer,
        user: User,
        buffer: &mut [u8; ANSWER_LEN],
    ) -> Result<usize, Refusal> {
        self.open_peer(peer)?;
        let charges = &self.peer(peer).charges;
        let own = charges.of(user);
        let mut answer = Answer::accepted(buffer);
        for queued in [own.messages, own.bytes, own.handles] {
            answer.bytes(&queued.to_be_bytes());
        }
        for left in charges.left(user) {
            answer.bytes(&(left as i16).to_be_bytes());
        }
        Ok(answer.len)
    }

    fn holders(
        &self,
        peer: Peer,
        id: HandleId,
        buffer: &mut [u8; ANSWER_LEN],
    ) -> Result<usize, Refusal> {
        self.open_peer(peer)?;
        let node = self.node(self.find(peer, id)?);
        if node.owner != peer {
            return Err(Refusal::NotPermitted);
        }
        let mut answer = Answer::accepted(buffer);
        answer.byte(node.holders);
        answer.byte(node.holders.count_ones() as u8);
        Ok(answer.len)
    }

    /// Shows a handle that the command `sent` attached: the invalid ID if the
    /// destruction of its node came before that, or if the node is destroyed and
    /// its owner, whose own handle is gone, is the receiver; else one more
    /// reference.
    #[inline]
    fn show_attached(&mut self, index: NodeIndex, peer: Peer, sent: u64) -> HandleId {
        let node = self.node(index);
        let own_gone = !node.live && node.owner == peer && !node.is_held_by(peer);
        if node.lived_at(sent) && !own_gone {
            self.add_reference(index, peer)
        } else {
            HandleId::INVALID
        }
    }

    /// Notes that one place of a message no longer carries a node to a peer.
    #[inline]
    fn carry_no_more(&mut self, index: NodeIndex, peer: Peer, sent: u64) {
        let node = self.node_mut(index);
        node.named -= 1;
        if node.lived_at(sent) {
            node.brought[peer.index()] -= 1;
        }
    }

    /// Withdraws a peer's notice of a destruction if it neither holds the node
    /// nor will be brought it by an earlier message.
    #[inline]
    fn settle_notice(&mut self, index: NodeIndex, peer: Peer) {
        let node = self.node(index);
        if !node.live && !node.concerns(peer) {
            self.peer_mut(peer).queue.remove_notice(index);
        }
    }

    /// Adds one reference to a node for a peer and returns its ID there. The
    /// sum rises, so the release notice of a live node is withdrawn.
    fn add_reference(&mut self, index: NodeIndex, peer: Peer) -> HandleId {
        let node = &mut self.nodes[index.index()];
        if node.live {
            self.peers[node.owner.index()].queue.remove_notice(index);
        }
        node.sum += 1;
        let handle = &mut node.handles[peer.index()];
        handle.count += 1;
        if handle.count == 1 {
            let state = &mut self.peers[peer.index()];
            state.given += 1;
            handle.id = HandleId::given(state.given);
            state.handles.insert(handle.id, index);
            node.holders |= peer.bit();
        }
        handle.id
    }

    /// Takes `by` of a peer's references to a node. If none is left, the
    /// handle goes, at the owner with the messages for the node, and its
    /// destroy notice with it unless an earlier message still carries the node.
    fn drop_references(&mut self, index: NodeIndex, peer: Peer, by: u64) {
        let node = &mut self.nodes[index.index()];
        let before = node.sum;
        node.sum -= by;
        let handle = &mut node.handles[peer.index()];
        handle.count -= by;
        let gone = handle.count == 0;
        if gone {
            node.holders &= !peer.bit();
            self.peers[peer.index()].handles.remove(handle.id);
        }
        let node = *node;
        if gone && node.owner == peer && node.messages > 0 {
            self.drop_messages_for(index, peer);
        }
        if gone {
            self.settle_notice(index, peer);
        }
        if node.live && before > 1 && node.sum == 1 {
            self.peer_mut(node.owner)
                .queue
                .push_notice(Notice::Released, index);
        }
    }

    /// Destroys a live node: a notice to every holder and to every peer with a
    /// queued message that carries it, one each, in place of a release notice to
    /// the owner.
    fn destroy_node(&mut self, index: NodeIndex) {
        let node = &mut self.nodes[index.index()];
        node.live = false;
        node.died = self.accepted;
        self.peers[node.owner.index()].queue.remove_notice(index);
        for peer in Peer::all().filter(|peer| node.concerns(*peer)) {
            self.peers[peer.index()]
                .queue
                .push_notice(Notice::Destroyed, index);
        }
    }

    /// Drops the messages for a node from its owner's queue.
    fn drop_messages_for(&mut self, index: NodeIndex, owner: Peer) {
        let queue = &self.peer(owner).queue;
        let dropped: Vec<MessageIndex> = queue
            .iter()
            .filter_map(|entry| match entry {
                Entry::Message(m) if queue.message(m).destination == index => Some(m),
                _ => None,
            })
            .collect();
        for message in dropped {
            self.drop_message(owner, message);
        }
    }

    /// How often there stands in the queues: a notice of a destruction without a
    /// handle; one with a handle and an earlier carrier; an earlier carrier to an
    /// owner whose own handle is gone; a later carrier to a holder. And how many
    /// places of seeds name destroyed nodes.
    #[cfg(test)]
    pub(crate) fn order_cases(&self) -> [usize; 5] {
        let mut cases = [0; 5];
        for peer in Peer::all() {
            let state = self.peer(peer);
            for entry in state.queue.iter() {
                match entry {
                    Entry::Notice(Notice::Destroyed, node) => {
                        let node = self.node(node);
                        let brought = node.brought[peer.index()] != 0;
                        cases[0] += usize::from(!node.is_held_by(peer));
                        cases[1] += usize::from(node.is_held_by(peer) && brought);
                    }
                    Entry::Notice(Notice::Released, _) => {}
                    Entry::Message(index) => {
                        let message = state.queue.message(index);
                        for node in message.attached().iter().map(|node| self.node(*node)) {
                            let (earlier, held) =
                                (node.lived_at(message.send), node.is_held_by(peer));
                            cases[2] += usize::from(earlier && node.owner == peer && !held);
                            cases[3] += usize::from(!earlier && held);
                        }
                    }
                }
            }
            let seed = state.seed.iter().flat_map(|seed| &seed.attached);
            cases[4] += seed.filter(|node| !self.node(**node).live).count();
        }
        cases
    }

    /// Checks each stored sum against what it is the sum of.
    #[cfg(test)]
    pub(crate) fn audit(&self) {
        let mut named = [0; NODES];
        let mut messages = [0; NODES];
        for peer in Peer::all() {
            let state = self.peer(peer);
            let mut charges = Charges::default();
            let mut brought = [0; NODES];
            let mut told = [false; NODES];
            for entry in state.queue.iter() {
                match entry {
                    Entry::Message(index) => {
                        let message = state.queue.message(index);
                        assert_eq!(self.node(message.destination).owner, peer);
                        charges.charge(message.user, message.charge());
                        messages[message.destination.index()] += 1;
                        named[message.destination.index()] += 1;
                        for node in message.attached() {
                            named[node.index()] += 1;
                            if self.node(*node).lived_at(message.send) {
                                // No earlier message is behind the notice.
                                assert!(!told[node.index()]);
                                brought[node.index()] += 1;
                            }
                        }
                    }
                    Entry::Notice(Notice::Destroyed, index) => {
                        let node = self.node(index);
                        assert!(!node.live && node.died < self.accepted);
                        // Not for nothing.
                        assert!(node.is_held_by(peer) || brought[index.index()] > 0);
                        told[index.index()] = true;
                    }
                    Entry::Notice(Notice::Released, node) => {
                        let node = self.node(node);
                        assert!(node.live && node.owner == peer && node.sum == 1);
                    }
                }
            }
            assert_eq!(state.charges, charges);
            for (index, node) in self.nodes.iter().enumerate() {
                assert_eq!(node.brought[peer.index()], brought[index]);
                // Nobody who will be brought it is left untold.
                assert!(node.live || brought[index] == 0 || told[index]);
            }
            for node in state.seed.iter().flat_map(|seed| &seed.attached) {
                named[node.index()] += 1;
            }
            if state.state != State::Open {
                assert!(state.seed.is_none());
                assert!(state.queue.front().is_none());
                assert!(state.handles.iter().next().is_none());
            }
            for (id, node) in state.handles.iter() {
                let handle = self.node(node).handles[peer.index()];
                assert_eq!(handle.id, id);
                assert!(handle.count > 0);
            }
        }
        for (index, node) in self.nodes.iter().enumerate() {
            assert_eq!(usize::from(node.owner.number()), index / NODES_PER_PEER);
            assert_eq!(node.named, named[index]);
            assert_eq!(node.messages, messages[index]);
            assert_eq!(node.sum, node.handles.iter().map(|h| h.count).sum());
            for peer in Peer::all() {
                let handle = node.handles[peer.index()];
                let holds = node.is_held_by(peer);
                assert_eq!(holds, handle.count > 0);
                if holds {
                    let found = self.peer(peer).handles.find(handle.id);
                    assert_eq!(found, Some(NodeIndex::new(index)));
                }
            }
            // Its owner holds it while it lives and while messages wait for it.
            if node.live || node.messages > 0 {
                assert!(node.is_held_by(node.owner));
            }
        }
    }

    /// Takes a message out undelivered, and the notices that only it kept.
    fn drop_message(&mut self, peer: Peer, index: MessageIndex) {
        let state = &mut self.peers[peer.index()];
        let message = state.queue.remove_message(index);
        let destination = &mut self.nodes[message.destination.index()];
        destination.messages -= 1;
        destination.named -= 1;
        state.charges.discharge(message.user, message.charge());
        let sent = message.send;
        let mut attached = [NodeIndex::FIRST; MAX_ATTACHED];
        let attached = &mut attached[..message.attached().len()];
        attached.copy_from_slice(message.attached());
        for &mut node in attached {
            self.carry_no_more(node, peer, sent);
            self.settle_notice(node, peer);
        }
    }
}
