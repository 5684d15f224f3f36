//! The quota rule.

use crate::ids::User;

/// An amount of each kind of resource: messages, payload bytes, handles.
#[derive(Clone, Copy, PartialEq, Eq, Debug, Default)]
pub struct Charge {
    /// Messages.
    pub messages: u16,
    /// Payload bytes.
    pub bytes: u16,
    /// Attached handles.
    pub handles: u16,
}

/// What one receiving peer takes of each resource, from all users together.
pub const LIMITS: Charge = Charge {
    messages: 64,
    bytes: 4096,
    handles: 64,
};

impl Charge {
    /// What one message of these sizes is charged.
    #[inline]
    pub fn of_message(bytes: u16, handles: u16) -> Charge {
        Charge {
            messages: 1,
            bytes,
            handles,
        }
    }

    /// The charge of `n` such messages.
    #[inline]
    pub fn times(self, n: u16) -> Charge {
        Charge {
            messages: self.messages * n,
            bytes: self.bytes * n,
            handles: self.handles * n,
        }
    }

    #[inline]
    fn plus(self, other: Charge) -> Charge {
        Charge {
            messages: self.messages + other.messages,
            bytes: self.bytes + other.bytes,
            handles: self.handles + other.handles,
        }
    }

    #[inline]
    fn less(self, other: Charge) -> Charge {
        Charge {
            messages: self.messages - other.messages,
            bytes: self.bytes - other.bytes,
            handles: self.handles - other.handles,
        }
    }
}

/// What is left of one resource: half, rounded down, of the limit less what
/// the others have queued, less what the user has queued. May be below zero.
#[inline]
pub fn left(limit: u16, others: u16, own: u16) -> i32 {
    (i32::from(limit) - i32::from(others)).div_euclid(2) - i32::from(own)
}

/// What each of the four users has queued at one peer.
#[derive(Clone, Copy, PartialEq, Eq, Debug, Default)]
pub struct Charges {
    of_user: [Charge; User::COUNT],
    total: Charge,
}

impl Charges {
    /// What the user has queued.
    #[inline]
    pub fn of(&self, user: User) -> Charge {
        self.of_user[user.index()]
    }

    /// What is left to the user: messages, bytes, handles.
    #[inline]
    pub fn left(&self, user: User) -> [i32; 3] {
        let own = self.of(user);
        let others = self.total.less(own);
        [
            left(LIMITS.messages, others.messages, own.messages),
            left(LIMITS.bytes, others.bytes, own.bytes),
            left(LIMITS.handles, others.handles, own.handles),
        ]
    }

    /// Whether the user may add this much. Each resource is tested, also one
    /// to which nothing is added.
    #[inline]
    pub fn allow(&self, user: User, add: Charge) -> bool {
        let [messages, bytes, handles] = self.left(user);
        i32::from(add.messages) <= messages
            && i32::from(add.bytes) <= bytes
            && i32::from(add.handles) <= handles
    }

    /// Charges the user.
    #[inline]
    pub fn charge(&mut self, user: User, add: Charge) {
        let own = &mut self.of_user[user.index()];
        *own = own.plus(add);
        self.total = self.total.plus(add);
    }

    /// Takes a charge back.
    #[inline]
    pub fn discharge(&mut self, user: User, gone: Charge) {
        let own = &mut self.of_user[user.index()];
        *own = own.less(gone);
        self.total = self.total.less(gone);
    }
}
