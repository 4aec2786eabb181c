//! The longest queues of a run.

use crate::model::channel::{Channel, BEHIND, HELD, INBOX, OUTBOX, UNDELIVERED};

/// The largest numbers seen.
#[derive(Clone, Copy, Debug, Default, PartialEq, Eq)]
pub struct Largest {
    pub outbox: usize,
    pub inbox: usize,
    pub undelivered: usize,
    pub held: usize,
    pub behind: u32,
}

/// What a run can reach at most (RULES 7.1 to 7.3, 7.5, 7.6).
pub const LIMITS: Largest = Largest {
    outbox: OUTBOX,
    inbox: INBOX,
    undelivered: UNDELIVERED,
    held: HELD,
    behind: BEHIND,
};

impl Largest {
    /// Looks at the queues of every card.
    pub fn see(&mut self, channel: &Channel) {
        for card in 0..channel.taken.len() {
            let seen = Largest {
                outbox: channel.outbox[card].len(),
                inbox: channel.inbox[card].len(),
                undelivered: channel.undelivered(card),
                held: channel.held[card].len(),
                behind: channel.made - channel.taken[card],
            };
            self.join(&seen);
        }
    }

    pub(super) fn join(&mut self, other: &Largest) {
        self.outbox = self.outbox.max(other.outbox);
        self.inbox = self.inbox.max(other.inbox);
        self.undelivered = self.undelivered.max(other.undelivered);
        self.held = self.held.max(other.held);
        self.behind = self.behind.max(other.behind);
    }

    /// Each with its name.
    pub(super) fn named(&self) -> [(&'static str, usize); 5] {
        [
            ("outbox", self.outbox),
            ("inbox", self.inbox),
            ("held", self.held),
            ("behind", self.behind as usize),
            ("undelivered", self.undelivered),
        ]
    }

    /// Which limits are met exactly, in the order of `named`.
    pub(super) fn reached(&self) -> [bool; 5] {
        let limits = LIMITS.named();
        let mut limits = limits.iter().map(|&(_, limit)| limit);
        self.named().map(|(_, seen)| Some(seen) == limits.next())
    }
}
