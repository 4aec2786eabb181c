//! What was compared of copies, and what must be among it.

use std::fmt;

use super::Memories;
use crate::memory::{copy, read_copies, register, CARDS, HOLDERS, REGISTERS};

/// Where the words come from.
#[derive(Clone, Copy, Debug, PartialEq, Eq)]
pub enum Of {
    Runs,
    /// Single words at their limits and past them.
    Words,
    /// States made by hand.
    States,
    /// Those with wild words.
    Wild,
}

use Of::{Runs, States, Wild, Words};

pub(super) const ALL: [Of; 4] = [Runs, Words, States, Wild];
/// Sizes past their limits and sets past eight cards are no state of the model.
pub(super) const BY_WORDS: [Of; 2] = [Words, Wild];
pub const BY_HAND: [Of; 3] = [Words, States, Wild];

impl Of {
    fn name(self) -> &'static str {
        match self {
            Runs => "runs",
            Words => "single words",
            States => "states made by hand",
            Wild => "wild words",
        }
    }
}

/// A call for the copies of a register, and what lies there.
struct Call {
    /// As they stand.
    cards: u32,
    registers: u32,
    number: u32,
    /// Nobody, and zeros, where no register can be.
    holders: u32,
    words: [u32; 8],
    given: [u32; 8],
}

impl Call {
    fn new((words, c): Memories, number: u32) -> Call {
        let at = number as usize;
        let (holders, row) = match number < 32 {
            true => {
                let cards = [0, 1, 2, 3, 4, 5, 6, 7];
                let row = cards.map(|card| words[copy(card, at)]);
                (HOLDERS.of(words[register(at)]), row)
            }
            false => (0, [0; 8]),
        };
        Call {
            cards: c[CARDS],
            registers: c[REGISTERS],
            number,
            holders,
            words: row,
            given: read_copies(words, c, number),
        }
    }

    fn present(&self) -> bool {
        self.number < self.registers.min(32)
    }

    /// Whether some card is so: present, a holder, with a word above 0.
    fn card(&self, so: fn(bool, bool, bool) -> bool) -> bool {
        (0..8).any(|card| {
            let word = self.words[card as usize];
            so(card < self.cards, self.holders >> card & 1 == 1, word > 0)
        })
    }

    /// How many values a present register has on its present holders.
    fn values(&self) -> usize {
        let held = (0..8).filter(|card| card < &self.cards && self.holders >> card & 1 == 1);
        let mut values: Vec<_> = held.map(|card| self.words[card as usize]).collect();
        values.sort();
        values.dedup();
        values.len() * self.present() as usize
    }

    fn above(&self) -> bool {
        self.given.iter().any(|&value| value > 0)
    }
}

/// A thing that calls must have, where, and whether one has it.
type Thing = (&'static str, &'static [Of], fn(&Call) -> bool);

const THINGS: [Thing; 17] = [
    ("a copy above 0", &ALL, Call::above),
    ("copies of several values", &ALL, |call| call.values() > 1),
    ("eight copies of eight values", &BY_HAND, |call| {
        call.values() == 8
    }),
    ("a copy above 0 on card 7", &ALL, |call| call.given[7] > 0),
    ("a copy above 0 of register 31", &ALL, |call| {
        call.number == 31 && call.above()
    }),
    ("a present card without a copy", &ALL, |call| {
        call.present() && call.card(|present, holds, _| present && !holds)
    }),
    ("such a card with a word above 0", &BY_HAND, |call| {
        call.present() && call.card(|present, holds, above| present && !holds && above)
    }),
    ("an absent holder with a word above 0", &BY_HAND, |call| {
        call.present() && call.card(|present, holds, above| !present && holds && above)
    }),
    ("holders past card 7", &BY_WORDS, |call| {
        call.present() && call.holders > 255
    }),
    ("an absent register with copies above 0", &BY_HAND, |call| {
        !call.present() && call.card(|present, holds, above| present && holds && above)
    }),
    ("the first absent register", &ALL, |call| {
        call.number == call.registers
    }),
    ("register 4,294,967,295", &ALL, |call| {
        call.number == u32::MAX
    }),
    (
        "a copy above 0 on the last of more than 8 cards",
        &BY_WORDS,
        |call| call.cards > 8 && call.given[7] > 0,
    ),
    (
        "a copy above 0 of the last of more than 32 registers",
        &BY_WORDS,
        |call| call.registers > 32 && call.number == 31 && call.above(),
    ),
    (
        "one of more than 32 registers past number 31",
        &BY_WORDS,
        |call| (32..call.registers).contains(&call.number),
    ),
    (
        "no cards, a holder with a word above 0",
        &BY_WORDS,
        |call| call.cards == 0 && call.present() && call.card(|_, holds, above| holds && above),
    ),
    ("no registers, copies above 0 there", &BY_WORDS, |call| {
        call.registers == 0 && call.card(|present, holds, above| present && holds && above)
    }),
];

/// What was compared, by where the words come from.
#[derive(Clone, Debug, Default)]
pub struct Compared {
    pub calls: [usize; ALL.len()],
    /// How many of them have each thing of `THINGS`.
    pub things: [[usize; THINGS.len()]; ALL.len()],
}

impl Compared {
    pub(super) fn add(&mut self, of: Of, memories: Memories, number: u32) {
        let call = Call::new(memories, number);
        self.calls[of as usize] += 1;
        for (count, (_, _, has)) in self.things[of as usize].iter_mut().zip(THINGS) {
            *count += has(&call) as usize;
        }
    }

    /// What must be there, and how often it was.
    fn needed(&self, of: Of) -> impl Iterator<Item = (&'static str, usize)> {
        let things = THINGS.into_iter().zip(self.things[of as usize]);
        let things = things.filter(move |((_, all, _), _)| all.contains(&of));
        things.map(|((name, ..), count)| (name, count))
    }

    /// What was never reached.
    pub fn missing(&self, of: &[Of]) -> Vec<String> {
        let never = |&of: &Of| {
            let things = self.needed(of).filter(|&(_, count)| count == 0);
            things.map(move |(name, _)| format!("copies at once in {}, {name}", of.name()))
        };
        of.iter().flat_map(never).collect()
    }
}

impl fmt::Display for Compared {
    fn fmt(&self, f: &mut fmt::Formatter) -> fmt::Result {
        let met = ALL.into_iter().filter(|&of| self.calls[of as usize] > 0);
        let line = |of: Of| {
            let things = self.needed(of);
            let things = things.map(|(name, count)| format!("{name}: {count}"));
            let things = things.collect::<Vec<_>>().join(", ");
            let (name, calls) = (of.name(), self.calls[of as usize]);
            format!("copies at once in {name}, calls {calls}  {things}")
        };
        write!(f, "{}", met.map(line).collect::<Vec<_>>().join("\n"))
    }
}
