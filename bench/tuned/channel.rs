//! The context multicast channel (RULES 5.6 to 5.8, chapter 6), and how messages join its queues.

use crate::word::*;
use crate::{refused, Answer, Store, BROADCASTS, HELD, INBOX, MOST, OUTBOX, TAKEN, TAKEN_HELD};

/// Undelivered broadcasts in an inbox (RULES 7.6).
const UNDELIVERED: usize = 32;

/// Where the broadcast after so many lies. Divided in 32 bits, and by a constant: a multiplication.
fn next_place(before: u32) -> usize {
    (before % BROADCASTS as u32) as usize
}

impl Store {
    /// Behind the last message of an outbox that is not full.
    pub(crate) fn join_outbox(&mut self, card: usize, message: Message) {
        let count = self.outbox_count[card];
        let place = self.outbox_head[card].wrapping_add(count) as usize % OUTBOX;
        self.outbox[card][place] = message;
        self.outbox_count[card] = count + 1;
    }

    /// The same for an inbox. Its size is no power of two; a comparison is quicker than a division.
    fn join_inbox(&mut self, card: usize, message: Message) {
        let count = self.inbox_count[card];
        let mut place = self.inbox_head[card].wrapping_add(count) as usize;
        if place >= INBOX {
            place -= INBOX;
        }
        self.inbox[card][place.min(INBOX - 1)] = message;
        self.inbox_count[card] = count + 1;
    }

    pub(crate) fn dispatch(&mut self, card: usize) -> Answer {
        let (head, count) = (self.outbox_head[card], self.outbox_count[card]);
        if count == 0 {
            return refused(30);
        }
        let message = self.outbox[card][head as usize % OUTBOX];
        if several(message.word) {
            let made = self.made;
            let mut cards = self.taken.iter().take(self.cards as usize);
            if cards.any(|taken| made.wrapping_sub(*taken) >= BROADCASTS as u32) {
                return refused(34);
            }
            if made >= MOST {
                return refused(6);
            }
            self.broadcast[next_place(made)] = message;
            self.made = made + 1;
        } else {
            let task = task(message.word);
            if lowest(self.flight[task].word) != 0 {
                return refused(6);
            }
            self.flight[task] = message;
            self.flight_tag[task] = self.taken[card];
        }
        self.outbox_head[card] = head.wrapping_add(1) % OUTBOX as u32;
        self.outbox_count[card] = count - 1;
        TAKEN
    }

    pub(crate) fn take_broadcast(&mut self, card: usize) -> Answer {
        let taken = self.taken[card];
        if taken >= self.made {
            return refused(31);
        }
        let number = taken + 1;
        let message = self.broadcast[next_place(taken)];
        let joins = message.word >> TO >> card & 1 == 1;
        let count = self.inbox_count[card] as usize;
        // An inbox with fewer messages has fewer broadcasts: they are seldom counted.
        if joins && count >= UNDELIVERED && self.undelivered(card) >= UNDELIVERED {
            return refused(35);
        }
        let held = (self.held_count[card] as usize).min(HELD);
        let tags = self.held_tag[card][..held].iter();
        let released = tags.filter(|tag| **tag == number).count();
        if count + joins as usize + released > INBOX {
            return refused(6);
        }
        if joins {
            self.join_inbox(card, message);
        }
        if released != 0 {
            self.release(card, number);
        }
        self.taken[card] = number;
        TAKEN
    }

    /// The messages held for this broadcast join the inbox, which has room; the others move up.
    fn release(&mut self, card: usize, number: u32) {
        let held = (self.held_count[card] as usize).min(HELD);
        let mut kept = 0;
        for place in 0..held {
            let (message, tag) = (self.held[card][place], self.held_tag[card][place]);
            if tag == number {
                self.join_inbox(card, message);
            } else {
                self.held[card][kept % HELD] = message;
                self.held_tag[card][kept % HELD] = tag;
                kept += 1;
            }
        }
        self.held_count[card] = kept as u32;
    }

    fn undelivered(&self, card: usize) -> usize {
        let inbox = &self.inbox[card & 7];
        let head = (self.inbox_head[card & 7] as usize).min(INBOX - 1);
        let count = (self.inbox_count[card & 7] as usize).min(INBOX);
        let places = (head..head + count).map(|place| place % INBOX);
        places.filter(|place| several(inbox[*place].word)).count()
    }

    pub(crate) fn take_single(&mut self, task: usize) -> Answer {
        let (message, tag) = (self.flight[task], self.flight_tag[task]);
        if lowest(message.word) == 0 {
            return refused(32);
        }
        let card = (message.word >> TO).trailing_zeros() as usize & 7;
        let answer = if tag <= self.taken[card] {
            if self.inbox_count[card] as usize >= INBOX {
                return refused(6);
            }
            self.join_inbox(card, message);
            TAKEN
        } else {
            let place = self.held_count[card] as usize;
            if place >= HELD {
                return refused(6);
            }
            self.held[card][place] = message;
            self.held_tag[card][place] = tag;
            self.held_count[card] = place as u32 + 1;
            TAKEN_HELD
        };
        self.flight[task].word = 0;
        answer
    }
}
