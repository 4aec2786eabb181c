//! The example of RULES 17.8, each byte from the draw that it must come from, refusals in their order,
//! and that no step of a load is refused for how it is written.

mod judged;

use super::wrong::{drawn, Wrong, WRONG};
use super::*;
use crate::by_hand;
use crate::generate::{self, loads};
use crate::model::files::answer_file;
use crate::model::State;
use crate::random::Random;

/// The example's.
fn example() -> Load {
    Load {
        seed: 2,
        cards: 2,
        homes: vec![0, 1],
        copies: vec![3, 2],
        primaries: vec![0, 1],
        steps: 3,
    }
}

/// Every size at its most.
fn largest(seed: u32) -> Load {
    Load {
        seed,
        cards: 8,
        homes: vec![7; 16],
        copies: vec![255; 32],
        primaries: vec![5; 32],
        steps: 4_096,
    }
}

#[test]
fn the_example() {
    let mut draws = Draws::new(2);
    let wanted = [
        15_521, 30_144, 12_383, 48_621, 46_989, 7_682, 13_487, 30_955, 34_420,
    ];
    assert_eq!(wanted.map(|_| draws.draw()), wanted);
    let file = [
        2, 2, 2, 3, 0, 0, 1, 3, 2, 0, 1, 2, 3, 6, 0, 1, 2, 0, 0x8D, 0xB7, 0, 0, 1, 0, 0, 0, 0, 0,
        0, 0, 0, 0, 0, 0, 0, 0, 0, 0,
    ];
    assert_eq!(file.len(), 38);
    assert_eq!(example().file(), Ok(file.into()));
}

/// The state after so many draws, without those before: a^k s + c (a^k - 1) / (a - 1), where the
/// power is taken modulo (a - 1) 2^32, so that the division is exact.
fn state_after(seed: u32, draws: u64) -> u32 {
    let (a, c, word) = (1_664_525_u128, 1_013_904_223, 1 << 32);
    let modulus = (a - 1) * word;
    let (mut power, mut square, mut left) = (1, a, draws);
    while left > 0 {
        if left % 2 == 1 {
            power = power * square % modulus;
        }
        square = square * square % modulus;
        left /= 2;
    }
    ((power * u128::from(seed) + c * ((power - 1) / (a - 1))) % word) as u32
}

#[test]
fn states_in_closed_form() {
    for seed in [0, 1, 2, 2_026, 1 << 31, u32::MAX] {
        let mut draws = Draws::new(seed);
        assert_eq!(state_after(seed, 0), seed);
        for number in 1..=30_000 {
            assert_eq!(draws.draw(), state_after(seed, number) >> 16, "{number}");
        }
        assert_eq!(state_after(seed, 1 << 32), seed, "all states come once");
    }
    assert_eq!(state_after(0, 1), 1_013_904_223);
}

/// Each code and each field by the number of its draw, which the codes before tell.
#[test]
fn each_byte_is_of_its_draw() {
    for item in 0..200 {
        let load = loads::good(&mut Random::new(17, item));
        let run = load.run().expect("a good one");
        let mut number = 0;
        let mut draw = || {
            number += 1;
            state_after(load.seed, number) >> 16
        };
        let (tasks, registers) = (load.homes.len() as u32, load.copies.len() as u32);
        for (place, &(code, argument)) in run.steps.iter().enumerate() {
            assert_eq!(code as u32, draw() % 10 + 1, "{item} {place}");
            let first = if matches!(code, 6 | 7 | 9) {
                load.cards
            } else {
                tasks
            };
            let first = draw() % first;
            let second = match code {
                1 | 2 => draw() % registers,
                4 => draw() % load.cards,
                _ => 0,
            };
            let function = if code == 2 { draw() % 5 + 1 } else { 0 };
            let operand = if code == 2 { draw() } else { 0 };
            let [low, high, third, fourth] = operand.to_le_bytes();
            let [first, second, function] = [first, second, function].map(|byte| byte as u8);
            let wanted = [first, second, function, 0, low, high, third, fourth];
            assert_eq!(argument, wanted, "{item} {place}");
        }
        assert_eq!(run.steps.len(), load.steps as usize);
    }
}

/// The bytes that each code leaves zero, and the most that each field comes to.
#[test]
fn fields_of_each_code() {
    let run = largest(9).run().expect("a good one");
    let mut most = [[0; 8]; 11];
    for (code, argument) in run.steps {
        for (most, byte) in most[code as usize].iter_mut().zip(argument) {
            *most = byte.max(*most);
        }
    }
    assert_eq!(most[0], [0; 8]);
    assert_eq!(most[1], [15, 31, 0, 0, 0, 0, 0, 0]);
    assert!(most[2][4] > 240 && most[2][5] > 240);
    most[2][4..6].fill(0);
    assert_eq!(most[2], [15, 31, 5, 0, 0, 0, 0, 0]);
    assert_eq!(most[4], [15, 7, 0, 0, 0, 0, 0, 0]);
    for code in [3, 5, 8, 10] {
        assert_eq!(most[code], [15, 0, 0, 0, 0, 0, 0, 0], "{code}");
    }
    for code in [6, 7, 9] {
        assert_eq!(most[code], [7, 0, 0, 0, 0, 0, 0, 0], "{code}");
    }
}

/// Fewer steps are the first of more; none is the placement alone.
#[test]
fn how_many_steps() {
    for seed in [0, 1, 1 << 31, u32::MAX] {
        let all = largest(seed).run().expect("a good one");
        assert_eq!(all.steps.len(), 4_096);
        for steps in [0, 1, 2, 255, 256, 257, 4_095, 4_096] {
            let mut first = all.clone();
            first.steps.truncate(steps as usize);
            let load = Load {
                steps,
                ..largest(seed)
            };
            assert_eq!(load.file(), Ok(first.write()), "{seed} {steps}");
        }
    }
    let file = largest(5).file().expect("a good one");
    assert_eq!((file.len(), &file[..5]), (36_949, &[8, 32, 16, 0, 16][..]));
    let none = Load {
        steps: 0,
        ..example()
    };
    assert_eq!(none.file(), Ok(vec![2, 2, 2, 0, 0, 0, 1, 3, 2, 0, 1]));
}

/// The reader accepts it with the placement that it is drawn for, and the writer writes it again.
#[test]
fn read_and_written_again() {
    for item in 0..300 {
        let load = loads::good(&mut Random::new(19, item));
        let file = load.file().expect("a good one");
        let run = Run::read(&file).expect("the reader accepts it");
        assert_eq!(Load::of(load.seed, &run, load.steps), load, "{item}");
        assert_eq!(Tables::of(&run).file(), Ok(file), "{item}");
    }
}

fn for_who_writes(result: u8) -> bool {
    (10..=15).contains(&result)
}

/// RULES 17.6, from the start.
#[test]
fn no_step_is_refused_for_how_it_is_written() {
    let mut taken = 0;
    for item in 0..300 {
        let load = loads::good(&mut Random::new(20, item));
        let answer = answer_file(&load.file().expect("a good one")).expect("an accepted file");
        let results = &answer[2..2 + load.steps as usize];
        assert!(!results.iter().copied().any(for_who_writes), "{item}");
        taken += results.iter().filter(|&&result| result == 0).count();
    }
    assert!(taken > 10_000);
}

/// The same from states that generated runs reach, and from states made by hand, ill-sized ones too.
#[test]
fn from_any_state() {
    let (mut reached, mut by_hand, mut ill_sized) = (0, 0, 0);
    for item in 0..1_000 {
        let random = &mut Random::new(21, item);
        let mut state = by_hand::state(random);
        if random.percent(50) {
            let Ok(run) = Run::read(&generate::file(22, item).1) else {
                continue;
            };
            state = State::start(run.placement).expect("an accepted placement");
            for (code, argument) in run.steps {
                state.step_reached(code, argument);
            }
            reached += 1;
        }
        let run = Run {
            placement: state.placement.clone(),
            steps: Vec::new(),
        };
        let load = Load::of(random.bits() as u32, &run, 50);
        // A placement that is out of range, or without a copy, is that of no load.
        let Ok(run) = load.run() else { continue };
        by_hand += 1;
        ill_sized += usize::from(!state.well_sized());
        for (code, argument) in run.steps {
            let (result, _) = state.step(code, argument);
            assert!(!for_who_writes(result), "{item} {code} {argument:?}");
        }
    }
    assert!(reached > 300 && by_hand - reached > 200 && ill_sized > 50);
}

#[test]
fn each_wrong_one_is_another() {
    let all: Vec<Load> = (0..100)
        .map(|item| loads::load(&mut Random::new(23, item)))
        .chain([example(), largest(0), largest(u32::MAX)])
        .collect();
    for load in &all {
        assert_eq!(drawn(load, Wrong::Nothing), load.file());
    }
    for wrong in WRONG {
        let noticed = |load: &Load| drawn(load, wrong) != load.file();
        assert!(all.iter().any(noticed), "{wrong:?}");
    }
}
