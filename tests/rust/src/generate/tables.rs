//! Tables for a writer of run files (`model::write`): good ones, and spoiled ones.

use super::any_placement;
use crate::model::files::Run;
use crate::model::write::Tables;
use crate::random::Random;

#[derive(Clone, Copy, Debug, PartialEq, Eq)]
pub enum Way {
    Cards,
    Registers,
    Tasks,
    Steps,
    Primaries,
    Arguments,
    NoCopy,
    /// Of 8 cards none is absent, so they stay good.
    CopyOnAbsentCard,
    HomeOnAbsentCard,
    /// On a single card they stay good.
    PrimaryWithoutCopy,
    AbsentPrimary,
}

pub const WAYS: [Way; 11] = [
    Way::Cards,
    Way::Registers,
    Way::Tasks,
    Way::Steps,
    Way::Primaries,
    Way::Arguments,
    Way::NoCopy,
    Way::CopyOnAbsentCard,
    Way::HomeOnAbsentCard,
    Way::PrimaryWithoutCopy,
    Way::AbsentPrimary,
];

/// The ways that a placement alone can be spoiled in.
pub const PLACED: [Way; 9] = [
    Way::Cards,
    Way::Registers,
    Way::Tasks,
    Way::Primaries,
    Way::NoCopy,
    Way::CopyOnAbsentCard,
    Way::HomeOnAbsentCard,
    Way::PrimaryWithoutCopy,
    Way::AbsentPrimary,
];

/// Good ones, or spoiled in one way, sometimes in a second and a third too.
pub fn tables(random: &mut Random) -> Tables {
    let mut tables = good(random);
    if random.percent(45) {
        return tables;
    }
    loop {
        let way = random.pick(&WAYS);
        spoil(random, &mut tables, way);
        if random.percent(70) {
            return tables;
        }
    }
}

/// Steps of random bytes; how many, mostly few, often about the carry of N and the most.
fn good(random: &mut Random) -> Tables {
    let steps = match random.percent(40) {
        true => random.pick(&[0, 0, 1, 255, 256, 257, 4_095, 4_096]),
        false => random.between(0, 40),
    };
    let step = |random: &mut Random| (random.byte(0, 255), random.bits().to_le_bytes());
    let placement = any_placement(random);
    let steps = (0..steps).map(|_| step(random)).collect();
    Tables::of(&Run { placement, steps })
}

/// A length that parallel tables must not have, near theirs or with the same low byte.
fn another(random: &mut Random, length: usize) -> usize {
    let lengths = [0, 1, length / 8, length + 1, length + 8, length + 256];
    let lengths = lengths.into_iter().chain(length.checked_sub(1));
    let lengths: Vec<usize> = lengths.filter(|&other| other != length).collect();
    random.pick(&lengths)
}

pub(super) fn spoil(random: &mut Random, tables: &mut Tables, way: Way) {
    let cards = tables.cards.clamp(1, 8) as u8;
    let register = random.between(0, tables.copies.len().max(1) - 1);
    let absent = random.byte(cards, 255);
    match way {
        Way::Cards => {
            // A number whose low byte is in range is out of range too.
            let wide = random.pick(&[256, 65_536, 1 << 31]) + cards as u32;
            tables.cards = random.pick(&[0, 9, 10, 255, 256, 257, wide, u32::MAX]);
        }
        Way::Registers => {
            let count = random.pick(&[0, 0, 33, 34, 256, 257]);
            tables.copies.resize(count, 1);
            tables.primaries.resize(count, 0);
        }
        Way::Tasks => {
            let count = random.pick(&[0, 0, 17, 18, 256, 257]);
            tables.homes.resize(count, 0);
        }
        Way::Steps => {
            let count = random.pick(&[4_097, 4_097, 4_098, 65_535, 65_536, 65_537]);
            tables.codes.resize(count, 3);
            tables.arguments.resize(8 * count, 5);
        }
        Way::Primaries => {
            let length = another(random, tables.copies.len());
            tables.primaries.resize(length, 0);
        }
        Way::Arguments => {
            let length = another(random, 8 * tables.codes.len());
            tables.arguments.resize(length, 0);
        }
        Way::NoCopy => change(&mut tables.copies, register, |_| 0),
        Way::CopyOnAbsentCard => change(&mut tables.copies, register, |copies| match cards {
            8 => copies,
            _ => copies | 1 << absent.min(7),
        }),
        Way::HomeOnAbsentCard => {
            let task = random.between(0, tables.homes.len().max(1) - 1);
            change(&mut tables.homes, task, |_| absent);
        }
        Way::PrimaryWithoutCopy => {
            let primary = random.byte(0, cards - 1);
            let next = 1 << ((primary + 1) % cards);
            change(&mut tables.primaries, register, |_| primary);
            change(&mut tables.copies, register, |copies| {
                copies & !(1 << primary) | next
            });
        }
        Way::AbsentPrimary => change(&mut tables.primaries, register, |_| absent),
    }
}

/// Changes a byte of a table, if it is there.
fn change(table: &mut [u8], at: usize, to: impl Fn(u8) -> u8) {
    if let Some(byte) = table.get_mut(at) {
        *byte = to(*byte);
    }
}

#[cfg(test)]
mod tests {
    use super::*;

    #[test]
    fn each_way_gives_its_refusal() {
        for way in WAYS {
            for item in 0..200 {
                let mut random = Random::new(4, item);
                let mut tables = good(&mut random);
                assert!(tables.file().is_ok(), "{item}");
                let cards = tables.cards;
                spoil(&mut random, &mut tables, way);
                let expected = match way {
                    Way::CopyOnAbsentCard if cards == 8 => 0,
                    Way::PrimaryWithoutCopy if cards == 1 => 0,
                    Way::Cards | Way::Registers | Way::Tasks => 3,
                    Way::Steps | Way::Primaries | Way::Arguments => 3,
                    _ => 4,
                };
                let refusal = tables.file().err().unwrap_or(0);
                assert_eq!(refusal, expected, "{way:?} {item}");
            }
        }
    }
}
