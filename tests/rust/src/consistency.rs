//! Is there a serial order (RULES 12.8)? Tried by brute force, for runs with few operations.
//!
//! The question is put to the answers alone: which requests were taken and what the reports
//! gave, a read what it read, an update what it found. So only 12.8 b and c are asked of the order;
//! that an operation that isn't reported may be in it or not asks less than 12.8 a, and copies are not
//! looked at.

use std::collections::HashSet;

use crate::model::apply;
use crate::model::files::{RawStep, Run};
use crate::model::results::taken;
use crate::model::State;

#[derive(Clone, Copy, Debug, PartialEq, Eq)]
pub struct Operation {
    pub register: usize,
    /// Function and operand of an update.
    pub update: Option<(u8, u32)>,
    /// What its report gave, once it is reported.
    pub reported: Option<u32>,
}

/// The operations of each task, in its order of requests.
pub type History = Vec<Vec<Operation>>;

/// What tasks saw of a run: only steps 1, 2 and 10 and their answers.
pub fn history(run: &Run) -> History {
    let mut state = State::start(run.placement.clone()).expect("an accepted placement");
    let mut history = vec![Vec::new(); run.placement.home.len()];
    for &(code, argument) in &run.steps {
        let answer = state.step(code, argument);
        record(&mut history, (code, argument), answer);
    }
    history
}

fn record(history: &mut History, (code, argument): RawStep, (result, value): (u8, u32)) {
    let [task, register, function, _, a, b, c, d] = argument;
    if !taken(result) || !matches!(code, 1 | 2 | 10) {
        return;
    }
    let operations = &mut history[task as usize];
    if code == 10 {
        let last = operations.last_mut().expect("a request before a report");
        last.reported = Some(value);
        return;
    }
    let operand = u32::from_le_bytes([a, b, c, d]);
    operations.push(Operation {
        register: register as usize,
        update: (code == 2).then_some((function, operand)),
        reported: None,
    });
}

pub fn operations(history: &History) -> usize {
    history.iter().map(Vec::len).sum()
}

/// Whether some serial order exists.
pub fn consistent(history: &History) -> bool {
    let registers = history.iter().flatten().map(|op| op.register + 1);
    let values = vec![0; registers.max().unwrap_or(0)];
    let search = Search {
        history,
        seen: HashSet::new(),
    };
    search.run(vec![0; history.len()], values)
}

/// How far each task has come, and what the updates so far make of each register.
type Point = (Vec<usize>, Vec<u32>);

struct Search<'a> {
    history: &'a History,
    seen: HashSet<Point>,
}

impl Search<'_> {
    fn run(mut self, positions: Vec<usize>, values: Vec<u32>) -> bool {
        let mut open = vec![(positions, values)];
        while let Some(point) = open.pop() {
            if !self.seen.insert(point.clone()) {
                continue;
            }
            let (positions, values) = point;
            let mut complete = true;
            for (task, operations) in self.history.iter().enumerate() {
                let Some(operation) = operations.get(positions[task]) else {
                    continue;
                };
                complete &= operation.reported.is_none();
                let value = values[operation.register];
                if operation.reported.is_some_and(|gave| gave != value) {
                    continue;
                }
                let mut values = values.clone();
                if let Some((function, operand)) = operation.update {
                    values[operation.register] = apply(function, value, operand);
                }
                let mut positions = positions.clone();
                positions[task] += 1;
                open.push((positions, values));
            }
            if complete {
                return true;
            }
        }
        false
    }
}

#[cfg(test)]
mod tests {
    use super::*;
    use crate::applied::Applied;
    use crate::generate::{file_of, near, Kind};
    use crate::model::has;
    use crate::model::placement::Placement;
    use crate::random::Random;

    fn read(register: usize, value: u32) -> Operation {
        Operation {
            register,
            update: None,
            reported: Some(value),
        }
    }

    fn set(register: usize, value: u32, found: Option<u32>) -> Operation {
        Operation {
            register,
            update: Some((1, value)),
            reported: found,
        }
    }

    /// Adds 1 to register 0.
    fn count(found: u32) -> Operation {
        Operation {
            update: Some((5, 1)),
            ..read(0, found)
        }
    }

    /// K9 as it would look without tags: register 1 shows 9 before register 0 shows 7.
    #[test]
    fn an_order_that_cannot_be() {
        let writers = [
            vec![read(0, 7), set(1, 9, Some(0))],
            vec![set(0, 7, Some(0))],
        ];
        let with = |reader: Vec<Operation>| {
            let mut history = writers.to_vec();
            history.push(reader);
            consistent(&history)
        };
        assert!(with(vec![read(1, 9), read(0, 7)]));
        assert!(with(vec![read(1, 0), read(0, 7)]));
        assert!(with(vec![read(0, 0), read(1, 9)]));
        assert!(!with(vec![read(1, 9), read(0, 0)]));
    }

    #[test]
    fn unreported_updates_may_count_or_not() {
        for seen in [0, 7] {
            assert!(consistent(&vec![
                vec![set(0, 7, None)],
                vec![read(0, seen)]
            ]));
        }
        assert!(!consistent(&vec![vec![set(0, 7, None)], vec![read(0, 8)]]));
        let back = vec![read(0, 7), read(0, 0)];
        assert!(!consistent(&vec![vec![set(0, 7, None)], back]));
    }

    /// Each number is handed out once, and a task's own rise.
    #[test]
    fn what_updates_found() {
        let of = |one: &[u32], other: &[u32]| {
            let task = |found: &[u32]| found.iter().map(|&found| count(found)).collect();
            consistent(&vec![task(one), task(other)])
        };
        assert!(of(&[0, 1], &[2, 3]) && of(&[0, 3], &[1, 2]) && of(&[2], &[0, 1]));
        assert!(!of(&[0], &[0]) && !of(&[1], &[2]) && !of(&[0, 2], &[2, 3]));
        assert!(!of(&[1, 0], &[2]) && !of(&[0, 1], &[3]));
        // One that was set between two finds what it makes the next not find.
        let sets = |found| vec![vec![set(0, 7, Some(found))], vec![count(0), count(7)]];
        assert!(consistent(&sets(1)));
        assert!([0, 7, 8].iter().all(|&found| !consistent(&sets(found))));
    }

    /// What a store tells a task of its update, as it applies that on the card that tells.
    type Telling = fn(&State, &Applied) -> u32;

    /// Whether that is this card: home, or the primary where home holds no copy (RULES 5.15).
    fn tells(state: &State, applied: &Applied) -> bool {
        let home = state.home(applied.task);
        let place = state.placement.registers[applied.register];
        match has(place.holders, home) {
            true => home == applied.card,
            false => place.primary as usize == applied.card,
        }
    }

    /// The history of a run in such a store; all else is as in the model.
    fn told(run: &Run, telling: Telling) -> History {
        let mut state = State::start(run.placement.clone()).expect("an accepted placement");
        let mut history = vec![Vec::new(); state.tasks.len()];
        let mut values = vec![None; state.tasks.len()];
        for &(code, argument) in &run.steps {
            let task = argument[0] as usize;
            let step = state.allowed(code, argument).ok();
            let applied = step.and_then(|step| Applied::by(&state, step));
            if let Some(applied) = applied.filter(|applied| tells(&state, applied)) {
                values[applied.task] = Some(telling(&state, &applied));
            }
            let (result, mut value) = state.step(code, argument);
            if code == 10 && taken(result) {
                value = values[task].take().unwrap_or(value);
            }
            record(&mut history, (code, argument), (result, value));
        }
        history
    }

    const WRONG: [(&str, Telling); 4] = [
        ("the value after it", |_, applied| {
            apply(applied.function, applied.found, applied.operand)
        }),
        ("zero", |_, _| 0),
        ("of the next register", |state, applied| {
            let registers = state.placement.registers.len();
            state.copy(applied.card, (applied.register + 1) % registers)
        }),
        ("of a holder that does not tell", |state, applied| {
            let holders = state.holders(applied.register);
            let other = (0..8).find(|&card| has(holders, card) && card != applied.card);
            state.copy(other.unwrap_or(applied.card), applied.register)
        }),
    ];

    /// Any steps on three cards. Register 0 is on cards 1 and 2, and no task at home there; register 1 is
    /// on card 1.
    fn elsewhere(item: u64) -> Run {
        let random = &mut Random::new(3, item);
        let primary = 1 + item as u8 % 2;
        let placement = Placement::new(3, &[0, 0], &[(0b110, primary), (0b010, 1)]);
        let steps = (0..1_000).map(|_| near(random, &placement)).collect();
        Run { placement, steps }
    }

    /// On runs with few operations each of these is caught, many times.
    #[test]
    fn wrong_values_of_updates() {
        let tiny = (0..300).map(|item| file_of(Kind::Tiny, &mut Random::new(2, item)));
        let tiny = tiny.map(|file| Run::read(&file).expect("an accepted file"));
        let elsewhere = (0..300).map(elsewhere);
        for runs in [tiny.collect::<Vec<Run>>(), elsewhere.collect()] {
            for run in &runs {
                let right = told(run, |_, applied| applied.found);
                assert_eq!(right, history(run));
                assert!(consistent(&right));
            }
            for (name, telling) in WRONG {
                let caught = runs.iter().filter(|run| !consistent(&told(run, telling)));
                let caught = caught.count();
                assert!(caught >= 100, "{name}: {caught}");
            }
        }
    }
}
