//! The register store of docs/RULES.md flat, packed and tuned by hand as firmware ships it: a
//! yardstick that the proved store is held against. It does and refuses what the rules say; the bench
//! compares it with the model, step by step. Portable, safe Rust: no heap, no `unsafe`, nothing of one
//! processor.
//!
//! There is one copy of the step's code (`step_reached`), which single steps and whole runs call, as
//! code size counts in firmware and the proved library has one copy too. A message is two words, as in
//! the proved store: a packed one (`word`), which has room for what is no kind, no function and no
//! card, and a value; held or in flight it has a tag besides. So the check of the state (`sized`) has
//! the same to look at. Indices are masked or cut to their arrays, which leaves no bound to check.
//!
//! Left out on purpose, though all of it together is quicker: code shaped for the vectoriser or to have
//! no branches (many messages tested at once, picks in place of branches), reading codes ahead, and
//! inlining the step into the loop of a whole run. So this is not the least time that Rust can take.
//! The proved store has picks in an update and at its end; with the same here, whole runs are some 2 %
//! quicker (docs/CHANGES.md).
//! In the check the loops over registers, tasks and broadcasts have no way out between their turns;
//! those over flights and a card's queues leave at the first fault, where the proved check's queues
//! have no way out either.

#![cfg_attr(not(test), no_std)]
#![forbid(unsafe_code)]

mod channel;
mod copies;
mod deliver;
mod load;
mod run;
mod sized;
mod tasks;
#[cfg(test)]
mod tests;
mod total;
mod word;
mod write;

pub use copies::Rows;
pub use load::{load, Wanted};
pub use run::answer;
pub use total::{total, total_by_card};
use word::{Message, READ, UPDATE};
pub use write::{write, Tables};

/// A result (0 taken, 100 taken and its message held, else the refusal) and a value.
type Answer = (u8, u32);

const TAKEN: Answer = (0, 0);
const TAKEN_HELD: Answer = (100, 0);

const fn refused(refusal: u8) -> Answer {
    (refusal, 0)
}

/// Places of a card's outbox, of its inbox, and for its held messages (RULES 7.1 to 7.3).
const OUTBOX: usize = 16;
const INBOX: usize = 48;
const HELD: usize = 16;
/// The last broadcasts that are kept: no card is further behind (RULES 7.5).
const BROADCASTS: usize = 24;
/// Broadcasts made, requests taken, and a tag, at most (RULES 7.7, 7.8, 8.6 g).
const MOST: u32 = 65_535;

/// Tables by card, task and register are at their largest. A queue is a ring with its head and its
/// count; held messages lie from place 0 on in order of arrival. Broadcast n is at (n - 1) % 24.
#[derive(Clone, PartialEq)]
pub struct Store {
    cards: u32,
    registers: u32,
    tasks: u32,
    requests: u32,
    made: u32,
    taken: [u32; 8],
    copies: [[u32; 32]; 8],
    register: [u32; 32],
    task: [u32; 16],
    /// By task: the operand, or the value read or found.
    value: [u32; 16],
    outbox_head: [u32; 8],
    outbox_count: [u32; 8],
    outbox: [[Message; OUTBOX]; 8],
    inbox_head: [u32; 8],
    inbox_count: [u32; 8],
    inbox: [[Message; INBOX]; 8],
    held_count: [u32; 8],
    held: [[Message; HELD]; 8],
    held_tag: [[u32; HELD]; 8],
    /// By task.
    flight: [Message; 16],
    flight_tag: [u32; 16],
    broadcast: [Message; BROADCASTS],
}

impl Store {
    /// No cards, so every step is refused with 6.
    pub const fn unstarted() -> Store {
        Store {
            cards: 0,
            registers: 0,
            tasks: 0,
            requests: 0,
            made: 0,
            taken: [0; 8],
            copies: [[0; 32]; 8],
            register: [0; 32],
            task: [0; 16],
            value: [0; 16],
            outbox_head: [0; 8],
            outbox_count: [0; 8],
            outbox: [[Message::NONE; OUTBOX]; 8],
            inbox_head: [0; 8],
            inbox_count: [0; 8],
            inbox: [[Message::NONE; INBOX]; 8],
            held_count: [0; 8],
            held: [[Message::NONE; HELD]; 8],
            held_tag: [[0; HELD]; 8],
            flight: [Message::NONE; 16],
            flight_tag: [0; 16],
            broadcast: [Message::NONE; BROADCASTS],
        }
    }

    /// One step on any state, which is checked first (RULES 8.5).
    pub fn step(&mut self, code: u8, argument: [u8; 8]) -> (u8, u32) {
        if !self.well_sized() {
            return refused(6);
        }
        self.step_reached(code, argument)
    }

    /// The same for a state that steps have reached from a start, without the check: the step, or the
    /// first refusal that applies. Never inlined, so that its code is there once.
    #[inline(never)]
    pub fn step_reached(&mut self, code: u8, argument: [u8; 8]) -> (u8, u32) {
        // Byte 0 is the lowest.
        let argument = u64::from_le_bytes(argument);
        match code {
            1 => self.request(READ, argument),
            2 => self.request(UPDATE, argument),
            3 => self.named_task(argument, Store::perform),
            4 => self.send_read(argument),
            5 => self.named_task(argument, Store::send_update),
            6 => self.named_card(argument, Store::dispatch),
            7 => self.named_card(argument, Store::take_broadcast),
            8 => self.named_task(argument, Store::take_single),
            9 => self.named_card(argument, Store::deliver),
            10 => self.named_task(argument, Store::report),
            _ => refused(10),
        }
    }

    /// The step of a code that names byte 0 alone, which is a task.
    fn named_task(
        &mut self,
        argument: u64,
        step: impl FnOnce(&mut Store, usize) -> Answer,
    ) -> Answer {
        match named(argument, self.tasks, 12) {
            Ok(task) => step(self, task & 15),
            Err(refusal) => refused(refusal),
        }
    }

    /// The same, where it is a card.
    fn named_card(
        &mut self,
        argument: u64,
        step: impl FnOnce(&mut Store, usize) -> Answer,
    ) -> Answer {
        match named(argument, self.cards, 14) {
            Ok(card) => step(self, card & 7),
            Err(refusal) => refused(refusal),
        }
    }
}

/// What byte 0 alone names: one of so many, else the refusal.
#[inline]
fn named(argument: u64, count: u32, absent: u8) -> Result<usize, u8> {
    if argument > 0xFF {
        return Err(11);
    }
    if argument >= count as u64 {
        return Err(absent);
    }
    Ok(argument as usize)
}
