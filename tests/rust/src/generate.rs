//! Run files from a seed. Each file has random numbers of its own, so any one of them can be
//! made again alone.

mod adding;
mod guide;
pub mod loads;
pub mod logs;
mod scenes;
mod spoil;
pub mod tables;

use crate::model::files::{RawStep, Run};
use crate::model::placement::{Place, Placement};
use crate::model::FUNCTIONS;
use crate::random::Random;
pub use adding::adding;

#[derive(Clone, Copy, Debug, PartialEq, Eq)]
pub enum Kind {
    /// Most steps taken, in moods that change.
    Guided,
    /// A few operations on few cards, for checks that try every order.
    Tiny,
    /// A card takes nothing until it is as far behind as it can be.
    Behind,
    /// An outbox gets 16 requests.
    Requests,
    /// An outbox gets 16 replies.
    Replies,
    /// An inbox gets 32 broadcasts and 16 single messages.
    Inbox,
    /// A card holds 16 single messages, and most come free at once.
    Held,
    /// 4,096 steps with every limit and every refusal that a file can cause.
    Full,
    /// Codes and arguments near their ranges, most of them refused.
    Near,
    /// Steps drawn from a seed (RULES 17).
    Load,
    /// Steps of random bytes.
    Bytes,
    /// A file that is refused, or nearly.
    Spoiled,
}

pub const KINDS: [Kind; 12] = [
    Kind::Guided,
    Kind::Tiny,
    Kind::Behind,
    Kind::Requests,
    Kind::Replies,
    Kind::Inbox,
    Kind::Held,
    Kind::Full,
    Kind::Near,
    Kind::Load,
    Kind::Bytes,
    Kind::Spoiled,
];

/// Of a hundred files, how many of each kind.
const SHARES: [usize; 12] = [32, 11, 6, 5, 5, 7, 7, 2, 5, 5, 2, 13];

/// One file of a seed, with its kind.
pub fn file(seed: u64, item: u64) -> (Kind, Vec<u8>) {
    let mut random = Random::new(seed, item);
    let mut number = random.between(0, 99);
    for (kind, share) in KINDS.into_iter().zip(SHARES) {
        if number < share {
            return (kind, file_of(kind, &mut random));
        }
        number -= share;
    }
    unreachable!("shares of a hundred")
}

/// One file of a kind.
pub fn file_of(kind: Kind, random: &mut Random) -> Vec<u8> {
    match kind {
        Kind::Guided => scenes::guided(random),
        Kind::Tiny => scenes::tiny(random),
        Kind::Behind => scenes::behind(random),
        Kind::Requests => scenes::requests(random),
        Kind::Replies => scenes::replies(random),
        Kind::Inbox => scenes::inbox(random, false),
        Kind::Held => scenes::inbox(random, true),
        Kind::Full => scenes::full(random),
        Kind::Near => unguided(random, near),
        Kind::Load => loads::run(random),
        Kind::Bytes => unguided(random, |random, _| {
            (random.byte(0, 255), random.bits().to_le_bytes())
        }),
        Kind::Spoiled => return spoil::spoiled(random),
    }
    .write()
}

/// As long as a file can be (RULES 3.2): every size at its most.
pub fn longest(random: &mut Random) -> Vec<u8> {
    scenes::longest(random).write()
}

/// How many steps: none, the most, and anything between, mostly few.
fn length(random: &mut Random) -> usize {
    match random.between(0, 99) {
        0..=2 => 0,
        3..=4 => 4_096,
        5..=14 => random.between(1, 10),
        15..=69 => random.between(11, 300),
        70..=94 => random.between(301, 1_200),
        _ => random.between(1_201, 4_096),
    }
}

/// An accepted placement. A copy lies everywhere, on a single card or on any cards.
fn placement(random: &mut Random, cards: u8, registers: usize, tasks: usize) -> Placement {
    let all = ((1u32 << cards) - 1) as u8;
    let place = |random: &mut Random| {
        let holders = match random.between(0, 3) {
            0 => all,
            1 => 1 << random.byte(0, cards - 1),
            _ => random.byte(1, all),
        };
        let primary = random.member(holders as u32) as u8;
        Place { holders, primary }
    };
    Placement {
        cards,
        home: (0..tasks).map(|_| random.byte(0, cards - 1)).collect(),
        registers: (0..registers).map(|_| place(random)).collect(),
    }
}

/// An accepted placement of any size; small and full sizes come often.
pub(crate) fn any_placement(random: &mut Random) -> Placement {
    let size = |random: &mut Random, most: usize| match random.between(0, 4) {
        0 => most,
        1 => random.between(1, most.min(3)),
        _ => random.between(1, most),
    };
    let cards = size(random, 8) as u8;
    let registers = size(random, 32);
    let tasks = size(random, 16);
    placement(random, cards, registers, tasks)
}

fn unguided(random: &mut Random, step: impl Fn(&mut Random, &Placement) -> RawStep) -> Run {
    let placement = any_placement(random);
    let steps = (0..length(random)).map(|_| step(random, &placement));
    Run {
        steps: steps.collect(),
        placement: placement.clone(),
    }
}

/// A step whose bytes mostly lie in their ranges or just outside.
pub(crate) fn near(random: &mut Random, placement: &Placement) -> RawStep {
    let code = if random.percent(3) {
        random.pick(&[0, 11, 12, 255])
    } else {
        random.byte(1, 10)
    };
    let below = |random: &mut Random, size: usize| {
        if random.percent(4) {
            random.pick(&[size as u8, size as u8 + 1, 255])
        } else {
            random.byte(0, size as u8 - 1)
        }
    };
    let cards = placement.cards as usize;
    let mut argument = [0; 8];
    argument[0] = match code {
        6 | 7 | 9 => below(random, cards),
        _ => below(random, placement.home.len()),
    };
    match code {
        1 => argument[1] = below(random, placement.registers.len()),
        2 => {
            argument[1] = below(random, placement.registers.len());
            argument[2] = if random.percent(4) {
                random.pick(&[0, 6, 255])
            } else {
                known_function(random)
            };
            argument[4..].copy_from_slice(&operand(random).to_le_bytes());
        }
        4 => argument[1] = below(random, cards),
        _ => {}
    }
    if random.percent(3) {
        argument[random.between(0, 7)] = random.byte(1, 255);
    }
    (code, argument)
}

pub(crate) fn known_function(random: &mut Random) -> u8 {
    random.byte(*FUNCTIONS.start(), *FUNCTIONS.end())
}

/// An operand whose sum with a value is the largest word, or up to two off it.
fn about_the_top(random: &mut Random, value: u32) -> u32 {
    (u32::MAX - value)
        .saturating_sub(2)
        .saturating_add(random.between(0, 4) as u32)
}

/// Small numbers, single bits, and numbers that an addition brings past the largest.
pub(crate) fn operand(random: &mut Random) -> u32 {
    match random.between(0, 3) {
        0 => random.between(0, 9) as u32,
        1 => 1 << random.between(0, 31),
        2 => u32::MAX - random.between(0, 9) as u32,
        _ => random.bits() as u32,
    }
}

#[cfg(test)]
mod tests {
    use super::*;

    #[test]
    fn the_same_seed_gives_the_same_files() {
        assert_eq!(SHARES.iter().sum::<usize>(), 100);
        for item in 0..20 {
            assert_eq!(file(7, item), file(7, item));
        }
        assert_ne!(file(7, 1), file(8, 1));
    }

    #[test]
    fn all_but_spoiled_files_are_accepted() {
        for kind in KINDS {
            for item in 0..30 {
                let file = file_of(kind, &mut Random::new(1, item));
                let accepted = Run::read(&file).is_ok();
                assert!(accepted || kind == Kind::Spoiled, "{kind:?} {item}");
            }
        }
    }
}
