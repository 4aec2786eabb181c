//! Loads (`model::load`): good ones, and such as are refused.

use super::tables::{self, PLACED};
use super::{length, placement};
use crate::model::files::Run;
use crate::model::load::Load;
use crate::model::write::Tables;
use crate::random::Random;

/// Seeds at the ends of their range and about its middle.
pub const SEEDS: [u32; 5] = [0, 1, (1 << 31) - 1, 1 << 31, u32::MAX];

/// Numbers of steps that are out of range: next to it, with bytes that are in it, and far off.
pub const TOO_MANY: [u32; 8] = [
    4_097,
    4_097,
    4_098,
    65_535,
    65_536,
    65_537,
    (1 << 31) + 3,
    u32::MAX,
];

pub fn seed(random: &mut Random) -> u32 {
    let any = random.bits() as u32;
    match random.percent(25) {
        true => random.pick(&SEEDS),
        false => any,
    }
}

/// Its least, its most, or any.
fn size(random: &mut Random, most: usize) -> usize {
    let any = random.between(1, most);
    random.pick(&[1, most, any, any])
}

/// A placement, without steps.
fn placed(random: &mut Random) -> Tables {
    let cards = size(random, 8) as u8;
    let registers = size(random, 32);
    let tasks = size(random, 16);
    let placement = placement(random, cards, registers, tasks);
    let steps = Vec::new();
    Tables::of(&Run { placement, steps })
}

/// How many steps: mostly few, often about the carry of N and the most.
fn steps(random: &mut Random) -> u32 {
    let (few, any) = (random.between(0, 40), random.between(0, 4_096));
    let steps = match random.between(0, 9) {
        0..=3 => random.pick(&[0, 0, 1, 255, 256, 257, 4_095, 4_096, 4_096]),
        4 => any,
        _ => few,
    };
    steps as u32
}

pub fn good(random: &mut Random) -> Load {
    let tables = placed(random);
    Load::new(seed(random), tables, steps(random))
}

/// Good ones, or spoiled in one way, sometimes in more.
pub fn load(random: &mut Random) -> Load {
    let (mut tables, mut steps) = (placed(random), steps(random));
    while random.percent(45) {
        match random.between(0, 9) {
            0 => steps = random.pick(&TOO_MANY),
            1 => tables.cards = random.between(0, 300) as u32,
            _ => {
                let way = random.pick(&PLACED);
                tables::spoil(random, &mut tables, way);
            }
        }
    }
    Load::new(seed(random), tables, steps)
}

/// A run whose steps are a load, as long as other generated runs.
pub fn run(random: &mut Random) -> Run {
    let (tables, steps) = (placed(random), length(random));
    let load = Load::new(seed(random), tables, steps as u32);
    load.run().expect("an accepted placement")
}

#[cfg(test)]
mod tests {
    use super::*;
    use crate::model::files::answer_file;

    #[test]
    fn about_half_are_good() {
        let loads = (0..1_000).map(|item| load(&mut Random::new(5, item)));
        let good = loads.filter(|load| load.file().is_ok()).count();
        assert!((400..700).contains(&good), "{good}");
    }

    /// No step is refused for how it is written, and some are taken.
    #[test]
    fn runs_are_loads() {
        let mut taken = 0;
        for item in 0..100 {
            let run = run(&mut Random::new(6, item));
            let answer = answer_file(&run.write()).expect("an accepted file");
            let results = &answer[2..2 + run.steps.len()];
            assert!(results.iter().all(|result| !(10..=15).contains(result)));
            taken += results.iter().filter(|&&result| result == 0).count();
        }
        assert!(taken > 1_000);
    }
}
