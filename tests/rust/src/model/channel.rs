//! The context multicast channel (RULES 6): outboxes, broadcasts, single messages and inboxes.

use std::collections::VecDeque;

use super::{has, Card, Cards, Refusal, Request, TaskNumber, Value};

// The limits: RULES 7.1 to 7.3, 7.7, 7.5, 7.6.
pub const OUTBOX: usize = 16;
pub const INBOX: usize = 48;
pub const HELD: usize = 16;
pub const BROADCASTS: u32 = 65_535;
pub const BEHIND: u32 = 24;
pub const UNDELIVERED: usize = 32;

#[derive(Clone, Copy, Debug, PartialEq, Eq)]
pub enum Body {
    Request(Request),
    Reply { value: Value },
}

#[derive(Clone, Copy, Debug, PartialEq, Eq)]
pub struct Message {
    pub task: TaskNumber,
    /// The destinations.
    pub to: Cards,
    pub body: Body,
}

impl Message {
    /// RULES 6.1.
    pub fn is_broadcast(&self) -> bool {
        self.to.count_ones() > 1
    }
}

/// A single message with its tag, the number of broadcasts its sender had taken (RULES 6.3).
#[derive(Clone, Copy, Debug, PartialEq, Eq)]
pub struct Tagged {
    pub message: Message,
    pub tag: u32,
}

impl Tagged {
    pub fn destination(&self) -> Card {
        self.message.to.trailing_zeros() as Card
    }
}

/// Where a single message is after its step 8 (RULES 5.8).
#[derive(Clone, Copy, Debug, PartialEq, Eq)]
pub enum Arrived {
    InTheInbox,
    Held,
}

#[derive(Clone, Debug, PartialEq, Eq)]
pub struct Channel {
    /// How far behind a card can be: `BEHIND`, or what it was for runs of earlier versions.
    pub most_behind: u32,
    /// The number of broadcasts made; the next one gets this plus 1.
    pub made: u32,
    /// The last broadcasts, as many as a card can be behind.
    pub recent: VecDeque<Message>,
    /// By card: the number of broadcasts taken.
    pub taken: Vec<u32>,
    /// By card, first in, first out.
    pub outbox: Vec<VecDeque<Message>>,
    pub inbox: Vec<VecDeque<Message>>,
    /// By card, in order of arrival.
    pub held: Vec<Vec<Tagged>>,
    /// By task, which has at most one (RULES 7.4).
    pub flight: Vec<Option<Tagged>>,
}

impl Channel {
    pub fn new(cards: usize, tasks: usize) -> Channel {
        Channel {
            most_behind: BEHIND,
            made: 0,
            recent: VecDeque::new(),
            taken: vec![0; cards],
            outbox: vec![VecDeque::new(); cards],
            inbox: vec![VecDeque::new(); cards],
            held: vec![Vec::new(); cards],
            flight: vec![None; tasks],
        }
    }

    /// How many broadcasts wait undelivered in a card's inbox.
    pub fn undelivered(&self, card: Card) -> usize {
        let inbox = self.inbox[card].iter();
        inbox.filter(|message| message.is_broadcast()).count()
    }

    /// The broadcast that a card takes next, if it was made.
    fn next(&self, card: Card) -> Option<&Message> {
        let behind = self.made.checked_sub(self.taken[card])? as usize;
        let index = self.recent.len().checked_sub(behind)?;
        self.recent.get(index)
    }

    /// Whether one more message for these destinations may join a card's outbox (RULES 8.8).
    pub fn may_send(&self, card: Card, to: Cards) -> Result<(), Refusal> {
        if to == 0 || self.outbox[card].len() >= OUTBOX {
            return Err(6);
        }
        Ok(())
    }

    pub fn send(&mut self, card: Card, message: Message) {
        self.outbox[card].push_back(message);
    }

    /// 30, 34, then 6 (RULES 5.6, 7.10, 8.8).
    pub fn may_dispatch(&self, card: Card) -> Result<(), Refusal> {
        let head = self.outbox[card].front().ok_or(30)?;
        if head.is_broadcast() {
            let number = self.made + 1;
            let mut taken = self.taken.iter();
            if taken.any(|taken| number - taken > self.most_behind) {
                return Err(34);
            }
            if number > BROADCASTS {
                return Err(6);
            }
        } else if self.flight[head.task].is_some() {
            return Err(6);
        }
        Ok(())
    }

    /// RULES 5.6.
    pub fn dispatch(&mut self, card: Card) {
        let Some(message) = self.outbox[card].pop_front() else {
            return;
        };
        if message.is_broadcast() {
            self.made += 1;
            if self.recent.len() == self.most_behind as usize {
                self.recent.pop_front();
            }
            self.recent.push_back(message);
        } else {
            let tag = self.taken[card];
            self.flight[message.task] = Some(Tagged { message, tag });
        }
    }

    /// 31, 35, then 6 (RULES 5.7, 7.11, 8.8).
    pub fn may_take_broadcast(&self, card: Card) -> Result<(), Refusal> {
        let next = self.next(card).ok_or(31)?;
        let joins = has(next.to, card);
        if joins && self.undelivered(card) >= UNDELIVERED {
            return Err(35);
        }
        let number = self.taken[card] + 1;
        let released = self.held[card].iter().filter(|held| held.tag == number);
        if self.inbox[card].len() + joins as usize + released.count() > INBOX {
            return Err(6);
        }
        Ok(())
    }

    /// RULES 5.7, 6.5.
    pub fn take_broadcast(&mut self, card: Card) {
        let next = self.next(card).copied();
        let inbox = &mut self.inbox[card];
        inbox.extend(next.filter(|message| has(message.to, card)));
        self.taken[card] += 1;
        let number = self.taken[card];
        self.held[card].retain(|held| {
            let released = held.tag == number;
            if released {
                inbox.push_back(held.message);
            }
            !released
        });
    }

    /// 32, then 6 (RULES 5.8, 8.8).
    pub fn may_take_single(&self, task: TaskNumber) -> Result<(), Refusal> {
        let single = self.flight[task].ok_or(32)?;
        let card = single.destination();
        let room = if single.tag <= self.taken[card] {
            self.inbox[card].len() < INBOX
        } else {
            self.held[card].len() < HELD
        };
        if room {
            Ok(())
        } else {
            Err(6)
        }
    }

    /// RULES 5.8.
    pub fn take_single(&mut self, task: TaskNumber) -> Arrived {
        let single = self.flight[task].take().expect("judged to be in flight");
        let card = single.destination();
        if single.tag <= self.taken[card] {
            self.inbox[card].push_back(single.message);
            Arrived::InTheInbox
        } else {
            self.held[card].push(single);
            Arrived::Held
        }
    }
}

#[cfg(test)]
mod tests {
    use super::*;

    fn single(task: TaskNumber, to: Cards) -> Message {
        let value = Value::Read(task as u32);
        let body = Body::Reply { value };
        Message { task, to, body }
    }

    /// Held messages join behind their broadcast, in order of arrival, each with its number.
    #[test]
    fn held_messages_follow_their_broadcast() {
        let mut channel = Channel::new(2, 16);
        for task in 0..3 {
            channel.send(0, single(task, 3));
            channel.dispatch(0);
        }
        // Tags 1, 2, 1 arrive in the order of tasks 5, 4, 3.
        for (task, tag) in [(5, 1), (4, 2), (3, 1)] {
            let message = single(task, 2);
            channel.flight[task] = Some(Tagged { message, tag });
            assert_eq!(channel.may_take_single(task), Ok(()));
            assert_eq!(channel.take_single(task), Arrived::Held);
        }
        assert_eq!(channel.held[1].len(), 3);
        for _ in 0..3 {
            assert_eq!(channel.may_take_broadcast(1), Ok(()));
            channel.take_broadcast(1);
        }
        let order: Vec<_> = channel.inbox[1].iter().map(|m| m.task).collect();
        assert_eq!(order, [0, 5, 3, 1, 4, 2]);
        assert!(channel.held[1].is_empty());
        assert_eq!(channel.may_take_broadcast(1), Err(31));
    }

    /// A card that is no destination drops the broadcast, counts it and releases.
    #[test]
    fn no_destination_still_counts() {
        let mut channel = Channel::new(3, 1);
        channel.send(0, single(0, 3));
        channel.dispatch(0);
        channel.held[2].push(Tagged {
            message: single(0, 4),
            tag: 1,
        });
        channel.take_broadcast(2);
        assert_eq!(channel.taken[2], 1);
        assert_eq!(channel.inbox[2].len(), 1);
        assert!(!channel.inbox[2][0].is_broadcast());
    }

    #[test]
    fn outcome_six() {
        let mut channel = Channel::new(2, 16);
        channel.outbox[0] = vec![single(0, 2); OUTBOX].into();
        assert_eq!(channel.may_send(0, 2), Err(6), "17th in an outbox");
        assert_eq!(channel.may_send(1, 0), Err(6), "a message to nobody");
        channel.dispatch(0);
        assert_eq!(channel.may_dispatch(0), Err(6), "a second in flight");
        channel.inbox[1] = vec![single(1, 2); INBOX].into();
        assert_eq!(channel.may_take_single(0), Err(6), "49th in an inbox");
        channel.inbox[1].clear();
        channel.flight[0].as_mut().unwrap().tag = 1;
        channel.held[1] = vec![channel.flight[0].unwrap(); HELD];
        assert_eq!(channel.may_take_single(0), Err(6), "17th held");
        channel.made = 1;
        channel.recent.push_back(single(0, 3));
        channel.inbox[1] = vec![single(1, 2); 32].into();
        assert_eq!(channel.may_take_broadcast(1), Err(6), "49th by release");
        channel.inbox[1].pop_front();
        assert_eq!(channel.may_take_broadcast(1), Ok(()));
        channel.made = BROADCASTS;
        channel.taken = vec![BROADCASTS; 2];
        channel.outbox[0].push_front(single(0, 3));
        assert_eq!(channel.may_dispatch(0), Err(6), "broadcast 65,536");
        channel.taken[1] = BROADCASTS - BEHIND;
        assert_eq!(channel.may_dispatch(0), Err(34), "34 before 6");
    }
}
