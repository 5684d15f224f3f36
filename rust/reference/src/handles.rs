//! A peer's table from handle ID to node.

use crate::bus::NodeIndex;
use crate::ids::HandleId;

/// Twice the handles a peer can hold, so that probes stay short.
const SLOTS: usize = 256;

/// Open addressing with linear probing. A free slot has the invalid ID, which
/// no peer holds. A peer holds at most 128 handles, one for each node.
#[derive(Clone)]
pub(crate) struct HandleTable {
    slots: Box<[(HandleId, NodeIndex); SLOTS]>,
}

const FREE: (HandleId, NodeIndex) = (HandleId::INVALID, NodeIndex::FIRST);

#[inline]
fn home(id: HandleId) -> usize {
    (id.0.wrapping_mul(0x9e37_79b9_7f4a_7c15) >> 56) as usize
}

impl HandleTable {
    pub(crate) fn new() -> HandleTable {
        HandleTable {
            slots: Box::new([FREE; SLOTS]),
        }
    }

    /// The node the ID names.
    #[inline]
    pub(crate) fn find(&self, id: HandleId) -> Option<NodeIndex> {
        if id == HandleId::INVALID {
            return None;
        }
        let mut at = home(id);
        loop {
            let (there, node) = self.slots[at];
            if there == id {
                return Some(node);
            }
            if there == HandleId::INVALID {
                return None;
            }
            at = (at + 1) % SLOTS;
        }
    }

    /// Enters an ID that is not in the table.
    #[inline]
    pub(crate) fn insert(&mut self, id: HandleId, node: NodeIndex) {
        let mut at = home(id);
        while self.slots[at].0 != HandleId::INVALID {
            at = (at + 1) % SLOTS;
        }
        self.slots[at] = (id, node);
    }

    /// Takes out an ID that is in the table, and closes the gap.
    pub(crate) fn remove(&mut self, id: HandleId) {
        let mut gap = home(id);
        while self.slots[gap].0 != id {
            gap = (gap + 1) % SLOTS;
        }
        let mut at = gap;
        loop {
            at = (at + 1) % SLOTS;
            let (there, _) = self.slots[at];
            if there == HandleId::INVALID {
                break;
            }
            // Move it back unless its home lies between the gap and itself.
            let from_home = at.wrapping_sub(home(there)) % SLOTS;
            let from_gap = at.wrapping_sub(gap) % SLOTS;
            if from_home >= from_gap {
                self.slots[gap] = self.slots[at];
                gap = at;
            }
        }
        self.slots[gap] = FREE;
    }

    /// Every ID held, in no order, with its node.
    pub(crate) fn iter(&self) -> impl Iterator<Item = (HandleId, NodeIndex)> + '_ {
        self.slots
            .iter()
            .copied()
            .filter(|(id, _)| *id != HandleId::INVALID)
    }
}
