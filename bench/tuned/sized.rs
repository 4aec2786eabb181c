//! Refusal 6 for the state (RULES 8.6), which a checked step begins with: all that is in use, and
//! nothing else. States are well sized nearly always, so the long loops have no way out between their
//! turns: the compiler can then take several words at once.

use crate::word::*;
use crate::{Store, BROADCASTS, HELD, INBOX, MOST, OUTBOX};

/// From the sizes, which are read once: the first that is absent, where the packed words have it. So
/// a field is compared where it stands.
#[derive(Clone, Copy)]
struct Absent {
    card: u32,
    home: u32,
    asked: u32,
    task: u32,
    register: u32,
    holder: u32,
    to: u32,
}

/// The tests of a word are joined by `&`: they hold nearly always, so leaving between them saves
/// nothing. A last field has all bits above, so a comparison of the whole word is one of that field.
impl Absent {
    #[inline]
    fn fits_register(self, word: u32) -> bool {
        (lowest(word) < self.card) & (word < self.holder)
    }

    #[inline]
    fn fits_task(self, word: u32) -> bool {
        let condition = lowest(word);
        let asks = (condition == READ) | (condition == UPDATE);
        (condition <= DONE_UPDATE)
            & (!asks | (word & 31 << ASKED < self.asked))
            & ((condition != UPDATE) | known(word >> ASKED_FUNCTION))
            & (word < self.home)
    }

    #[inline]
    fn fits_message(self, word: u32) -> bool {
        let kind = lowest(word);
        (READ..=REPLY_UPDATE).contains(&kind)
            & ((kind != UPDATE) | known(word >> FUNCTION))
            & (word & 15 << TASK < self.task)
            & (word & 31 << REGISTER < self.register)
            & (1 << TO..self.to).contains(&word)
    }
}

impl Store {
    pub(crate) fn well_sized(&self) -> bool {
        let (cards, registers, tasks) = (self.cards, self.registers, self.tasks);
        let in_range = (1..=8).contains(&cards)
            & (1..=32).contains(&registers)
            & (1..=16).contains(&tasks)
            & (self.made <= MOST)
            & (self.requests <= MOST);
        if !in_range {
            return false;
        }
        let absent = Absent {
            card: cards,
            home: cards << HOME,
            asked: registers << ASKED,
            task: tasks << TASK,
            register: registers << REGISTER,
            holder: 1 << HOLDERS << cards,
            to: 1 << TO << cards,
        };
        let mut fit = true;
        for word in &self.register[..registers as usize] {
            fit &= absent.fits_register(*word);
        }
        for word in &self.task[..tasks as usize] {
            fit &= absent.fits_task(*word);
        }
        for (message, tag) in self.flight[..tasks as usize].iter().zip(&self.flight_tag) {
            let word = message.word;
            let nothing = lowest(word) == 0;
            if !nothing && !(absent.fits_message(word) & !several(word) & (*tag <= MOST)) {
                return false;
            }
        }
        for message in &self.broadcast[..(self.made as usize).min(BROADCASTS)] {
            fit &= absent.fits_message(message.word) & several(message.word);
        }
        fit && (0..cards as usize).all(|card| self.card_fits(card & 7, absent))
    }

    fn card_fits(&self, card: usize, absent: Absent) -> bool {
        let (made, taken) = (self.made, self.taken[card]);
        let outbox_head = self.outbox_head[card] as usize;
        let outbox_count = self.outbox_count[card] as usize;
        let inbox_head = self.inbox_head[card] as usize;
        let inbox_count = self.inbox_count[card] as usize;
        let held = self.held_count[card] as usize;
        let in_range = (taken <= made)
            & (made.wrapping_sub(taken) <= BROADCASTS as u32)
            & (outbox_head < OUTBOX)
            & (outbox_count <= OUTBOX)
            & (inbox_head < INBOX)
            & (inbox_count <= INBOX)
            & (held <= HELD);
        if !in_range {
            return false;
        }
        for at in 0..outbox_count {
            if !absent.fits_message(self.outbox[card][(outbox_head + at) % OUTBOX].word) {
                return false;
            }
        }
        let mut place = inbox_head;
        for _ in 0..inbox_count {
            if !absent.fits_message(self.inbox[card][place.min(INBOX - 1)].word) {
                return false;
            }
            place = if place == INBOX - 1 { 0 } else { place + 1 };
        }
        for (message, tag) in self.held[card][..held].iter().zip(&self.held_tag[card]) {
            if !(absent.fits_message(message.word) & (*tag <= MOST)) {
                return false;
            }
        }
        true
    }
}
