//! Generated logs and runs reach what they must, and each reading with one thing wrong is noticed.

use super::*;
use crate::model::has;
use crate::model::totals::{total, total_by_card};
use crate::model::State;
use crate::statistics::{none_missing, FILES};

fn put((refusal, total): (u8, u32), into: &mut u32) -> u8 {
    *into = total;
    refusal
}

const MODEL: Readings = Readings {
    total: |cards, operands, into| put(total(cards, operands), into),
    total_by_card: |cards, operands, into| put(total_by_card(cards, operands), into),
};

/// The copies that a run of the model leaves on these cards, by register.
fn copies(run: &Run, card: fn(&State, usize) -> usize) -> Vec<u32> {
    let (_, state) = Logs::of(run);
    let registers = 0..run.placement.registers.len();
    registers
        .map(|register| state.copy(card(&state, register), register))
        .collect()
}

fn primary(state: &State, register: usize) -> usize {
    state.placement.registers[register].primary as usize
}

/// Compares on so many items.
fn run(readings: Readings, runner: Runner) -> Result<Compared, String> {
    let mut compared = Compared::default();
    for item in 0..FILES {
        compare(&mut Random::new(1, item), &mut compared, readings, runner)?;
    }
    Ok(compared)
}

/// The name of a thing, and how it is taken away.
type Taken = (&'static str, fn(&mut Compared));

#[test]
fn generated_logs_and_runs_reach_everything() {
    let compared = run(MODEL, &|run| Ok(copies(run, primary))).expect("the model's own");
    assert_eq!(none_missing(compared.missing()), Ok(()));
    let taken: [Taken; 7] = [
        ("logs, no updates", |c| c.things[0] = 0),
        ("logs, 200,000 updates", |c| c.things[2] = 0),
        ("logs, 14 for the last card alone", |c| c.things[17] = 0),
        ("1000 logs of runs of function 5 alone", |c| {
            c.alone[0] = 999
        }),
        ("500 logs of runs of several cards", |c| c.alone[1] = 499),
        ("500 logs of runs that came round", |c| c.alone[2] = 499),
        ("200 logs of runs with other functions", |c| {
            c.mixed[0] = 199
        }),
    ];
    for (name, take) in taken {
        let mut less = compared.clone();
        take(&mut less);
        assert_eq!(less.missing(), [name]);
    }
}

/// What a reading gives that takes other lists than its own.
fn of(cards: &[u8], operands: &[u32], into: &mut u32) -> u8 {
    put(total(cards, operands), into)
}

const WRONG: [(&str, Reading); 15] = [
    ("stays at the top", |c, o, into| match total(c, o) {
        (0, _) => put((0, o.iter().fold(0, |sum, &w| sum.saturating_add(w))), into),
        refused => put(refused, into),
    }),
    ("a bit lost", |c, o, into| {
        let (refusal, total) = total(c, o);
        put((refusal, total & u32::MAX >> 1), into)
    }),
    ("not from 0", |c, o, into| {
        let (refusal, total) = total(c, o);
        put((refusal, into.wrapping_add(total)), into)
    }),
    ("not written where refused", |c, o, into| {
        match total(c, o) {
            (0, total) => put((0, total), into),
            (refusal, _) => refusal,
        }
    }),
    ("a total where refused", |c, o, into| match total(c, o) {
        (14, _) => put((14, o.iter().fold(0, |sum, &w| sum.wrapping_add(w))), into),
        answer => put(answer, into),
    }),
    ("14 before 3", |c, o, into| {
        match c.iter().any(|&card| card > 7) {
            true => put((14, 0), into),
            false => of(c, o, into),
        }
    }),
    ("card 7 refused", |c, o, into| {
        match (total(c, o), c.contains(&7)) {
            ((0, _), true) => put((14, 0), into),
            (answer, _) => put(answer, into),
        }
    }),
    ("card 8 taken", |c, o, into| {
        let cards: Vec<u8> = c
            .iter()
            .map(|&card| if card == 8 { 7 } else { card })
            .collect();
        of(&cards, o, into)
    }),
    ("cards cut to three bits", |c, o, into| {
        let cards: Vec<u8> = c.iter().map(|&card| card % 8).collect();
        of(&cards, o, into)
    }),
    ("the last card not looked at", |c, o, into| {
        let mut cards = c.to_vec();
        if let Some(last) = cards.last_mut() {
            *last = 0;
        }
        of(&cards, o, into)
    }),
    ("the shorter list", |c, o, into| {
        let length = c.len().min(o.len());
        of(&c[..length], &o[..length], into)
    }),
    ("more operands taken", |c, o, into| {
        of(c, &o[..o.len().min(c.len())], into)
    }),
    ("lengths cut to two bytes", |c, o, into| {
        of(&c[..c.len() % 65_536], &o[..o.len() % 65_536], into)
    }),
    ("without the last", |c, o, into| {
        of(
            &c[..c.len().saturating_sub(1)],
            &o[..o.len().saturating_sub(1)],
            into,
        )
    }),
    ("without a card", |c, o, into| {
        let operands = c
            .iter()
            .zip(o)
            .map(|(&card, &operand)| if card == 7 { 0 } else { operand });
        let operands: Vec<u32> = operands.collect();
        match total(c, o) {
            (0, _) => of(c, &operands, into),
            refused => put(refused, into),
        }
    }),
];

#[test]
fn each_wrong_reading_is_noticed() {
    let runner: Runner = &|run| Ok(copies(run, primary));
    for (name, wrong) in WRONG {
        let (mut plain, mut by_card) = (MODEL, MODEL);
        plain.total = wrong;
        by_card.total_by_card = wrong;
        for readings in [plain, by_card] {
            assert!(run(readings, runner).is_err(), "{name}");
        }
    }
}

/// RULES 16.7 says of the primary's copy, and of no other, what it says.
#[test]
fn each_wrong_copy_is_noticed() {
    let wrong: [(&str, Runner); 3] = [
        ("of another holder", &|run| {
            Ok(copies(run, |state, register| {
                let primary = primary(state, register);
                let holders = state.holders(register);
                let other = (0..8).find(|&card| card != primary && has(holders, card));
                other.unwrap_or(primary)
            }))
        }),
        ("of the next register", &|run| {
            let mut copies = copies(run, primary);
            copies.rotate_left(1);
            Ok(copies)
        }),
        ("a step before", &|run| {
            let mut run = run.clone();
            run.steps.pop();
            Ok(copies(&run, primary))
        }),
    ];
    for (name, runner) in wrong {
        let said = run(MODEL, runner).unwrap_err();
        assert!(said.contains("the copy"), "{name}: {said}");
    }
}
