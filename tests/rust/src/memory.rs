//! The store's two memories, word by word: where things lie in them is said here, as in RULES 11.12,
//! and for the proofs in `crates/tables/specs/Layout` and `crates/channel/specs/Layout`. A state of
//! the model is `written` into them and `shown` by them, `sized` says which are well sized, and
//! `copies` what a panel reads of the copies in any of them.

mod copies;
mod shown;
mod sized;
#[cfg(test)]
mod tests;
mod written;

pub use copies::{read_copies, read_copy};
pub use shown::shown;
pub use sized::well_sized;
pub use written::written;

use crate::model::channel::{BEHIND, INBOX, OUTBOX};

pub const REGISTERS_WORDS: usize = 593;
pub const CHANNEL_WORDS: usize = RECENT + 2 * BEHIND as usize;

/// A store: the registers' memory and the channel's.
#[derive(Clone, PartialEq, Eq)]
pub struct Words {
    pub registers: [u32; REGISTERS_WORDS],
    pub channel: [u32; CHANNEL_WORDS],
}

/// A field of a packed word: the word divided by the field's unit, and of that the remainder by
/// its size. The last field of a word is not divided further.
#[derive(Clone, Copy, Debug, PartialEq, Eq)]
pub struct Field {
    pub name: &'static str,
    unit: u32,
    size: u32,
}

impl Field {
    const fn new(name: &'static str, unit: u32, size: u32) -> Field {
        Field { name, unit, size }
    }

    const fn last(name: &'static str, unit: u32) -> Field {
        Field::new(name, unit, u32::MAX / unit + 1)
    }

    /// The largest number that it can have.
    pub const fn most(self) -> u32 {
        self.size - 1
    }

    pub fn of(self, word: u32) -> u32 {
        word / self.unit % self.size
    }

    /// The word with another number in this field.
    pub fn put(self, word: u32, number: u32) -> u32 {
        assert!(number <= self.most(), "{} {number}", self.name);
        word - self.of(word) * self.unit + number * self.unit
    }
}

// The packed word of a message; its value is the word behind, and the tag of one that is held or
// in flight the word behind that.
pub const KIND: Field = Field::new("kind", 1, 8);
pub const TASK: Field = Field::new("task", 8, 16);
pub const REGISTER: Field = Field::new("register", 128, 32);
pub const FUNCTION: Field = Field::new("function", 4_096, 8);
pub const DESTINATIONS: Field = Field::last("destinations", 32_768);
pub const VALUE: usize = 1;
pub const TAG: usize = 2;

// The packed word of a task; its value is the word behind.
pub const DOING: Field = Field::new("condition", 1, 8);
pub const ASKED: Field = Field::new("register asked for", 8, 32);
pub const ASKED_FUNCTION: Field = Field::new("function asked for", 256, 8);
pub const HOME: Field = Field::last("home", 2_048);

// The packed word of a register.
pub const PRIMARY: Field = Field::new("primary", 1, 8);
pub const HOLDERS: Field = Field::last("holders", 8);

// The registers' memory.
pub const REQUESTS: usize = 0;

pub fn task(task: usize) -> usize {
    1 + 2 * task
}

pub fn register(register: usize) -> usize {
    33 + register
}

/// Register after register, the eight of one side by side.
pub fn copy(card: usize, register: usize) -> usize {
    65 + 8 * register + card
}

/// Where it starts in its ring, and how many messages.
pub fn outbox(card: usize) -> usize {
    321 + 34 * card
}

/// A message of a card's ring of 16.
pub fn outbox_message(card: usize, place: usize) -> usize {
    outbox(card) + 2 + 2 * (place % OUTBOX)
}

// The channel's memory.
pub const CARDS: usize = 0;
pub const TASKS: usize = 1;
pub const REGISTERS: usize = 2;
pub const MADE: usize = 3;

/// Broadcasts taken, where the inbox starts in its ring, its length, how many are held.
pub fn card(card: usize) -> usize {
    4 + 148 * card
}

/// A message of a card's ring of 48.
pub fn inbox_message(number: usize, place: usize) -> usize {
    card(number) + 4 + 2 * (place % INBOX)
}

pub fn held_message(number: usize, place: usize) -> usize {
    card(number) + 100 + 3 * place
}

pub fn flight_message(task: usize) -> usize {
    1_188 + 3 * task
}

/// Where the last broadcasts lie.
const RECENT: usize = 1_236;

/// A message of their ring.
pub fn broadcast_message(number: u32) -> usize {
    RECENT + 2 * (number % BEHIND) as usize
}

/// Where the messages of a card's outbox and inbox lie, oldest first, and those held there.
fn outbox_places(words: &[u32], card: usize) -> impl Iterator<Item = usize> {
    let (head, count) = (words[outbox(card)], words[outbox(card) + 1]);
    (0..count).map(move |place| outbox_message(card, (head + place) as usize))
}

fn inbox_places(words: &[u32], number: usize) -> impl Iterator<Item = usize> {
    let (head, count) = (words[card(number) + 1], words[card(number) + 2]);
    (0..count).map(move |place| inbox_message(number, (head + place) as usize))
}

fn held_places(words: &[u32], number: usize) -> impl Iterator<Item = usize> {
    let count = words[card(number) + 3] as usize;
    (0..count).map(move |place| held_message(number, place))
}

/// Where the messages in flight of so many tasks lie, and nothing where there is none.
fn flight_places(words: &[u32], tasks: usize) -> Vec<Option<usize>> {
    let places = (0..tasks).map(flight_message);
    places
        .map(|at| Some(at).filter(|&at| KIND.of(words[at]) != 0))
        .collect()
}

/// Where the last broadcasts lie, as many as are kept.
fn broadcast_places(words: &[u32]) -> impl Iterator<Item = usize> {
    let made = words[MADE];
    (made - made.min(BEHIND)..made).map(|before| broadcast_message(before + 1))
}
