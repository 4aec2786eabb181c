//! The load of a seed (RULES 17). Unlike a step it picks: what byte 0 names is looked up by the code,
//! as a branch there would often be guessed wrong. An argument is put together in a word and stored at
//! once.

use crate::run::placed;

/// What a load is drawn from.
pub struct Wanted<'a> {
    pub seed: u32,
    pub cards: u32,
    pub homes: &'a [u8],
    pub copies: &'a [u8],
    pub primaries: &'a [u8],
    pub steps: u32,
}

/// Numbers below a limit of at most 65,536, by products in place of a division for each draw.
#[derive(Clone, Copy)]
struct Below {
    limit: u32,
    /// 4,294,967,296 divided by the limit, rounded up, modulo 4,294,967,296.
    part: u32,
}

impl Below {
    const fn new(limit: u32) -> Below {
        Below {
            limit,
            part: (u32::MAX / limit).wrapping_add(1),
        }
    }

    /// The draw modulo the limit: exact for every draw, which is below 65,536.
    #[inline]
    fn of(self, draw: u32) -> u64 {
        let fraction = self.part.wrapping_mul(draw);
        (u64::from(fraction) * u64::from(self.limit)) >> 32
    }
}

struct Draws(u32);

impl Draws {
    #[inline]
    fn next(&mut self) -> u32 {
        self.0 = self.0.wrapping_mul(1_664_525).wrapping_add(1_013_904_223);
        self.0 >> 16
    }
}

/// Writes the load into the output: 0 and its length; or 3 to 5, 0, and the output stays as it was.
pub fn load(wanted: &Wanted, output: &mut [u8]) -> (u8, u32) {
    let &Wanted {
        seed,
        cards,
        homes,
        copies,
        primaries,
        steps,
    } = wanted;
    let sized = (1..=8).contains(&cards)
        && (1..=32).contains(&copies.len())
        && (1..=16).contains(&homes.len())
        && primaries.len() == copies.len()
        && steps <= 4_096;
    if !sized {
        return (3, 0);
    }
    if !placed(cards as u8, homes, copies, primaries) {
        return (4, 0);
    }
    let length = 5 + homes.len() + 2 * copies.len() + 9 * steps as usize;
    let Some(output) = output.get_mut(..length) else {
        return (5, 0);
    };
    let [low, high, ..] = steps.to_le_bytes();
    let (registers, tasks) = (copies.len() as u8, homes.len() as u8);
    let sizes = [cards as u8, registers, tasks, low, high];
    let mut rest = output;
    for table in [&sizes, homes, copies, primaries] {
        let (first, later) = rest.split_at_mut(table.len());
        first.copy_from_slice(table);
        rest = later;
    }
    let (codes, arguments) = rest.split_at_mut(steps as usize);
    let [card, task, register] = [cards, tasks.into(), registers.into()].map(Below::new);
    // By the code less one.
    let firsts = [task, task, task, task, task, card, card, task, card, task];
    let mut draws = Draws(seed);
    for (code, argument) in codes.iter_mut().zip(arguments.as_chunks_mut().0) {
        let number = draws.next() % 10;
        let mut word = firsts[number as usize].of(draws.next());
        if let 0 | 1 | 3 = number {
            let second = if number == 3 { card } else { register };
            word |= second.of(draws.next()) << 8;
            if number == 1 {
                word |= u64::from(1 + draws.next() % 5) << 16;
                word |= u64::from(draws.next()) << 32;
            }
        }
        *code = 1 + number as u8;
        *argument = word.to_le_bytes();
    }
    (0, length as u32)
}
