//! Logs with one thing wrong are noticed by the cases.

use super::super::text;
use super::*;
use crate::applied::Applied;
use crate::model::totals::Log;
use crate::model::{only, State};

/// The card and the operand that an update brings into a log, if it does.
type Taken = fn(&State, &Applied) -> Option<(u8, u32)>;

fn right(state: &State, applied: &Applied) -> Option<(u8, u32)> {
    let primary = state.placement.registers[applied.register].primary as usize;
    let right = applied.card == primary && applied.function == 5;
    right.then(|| (state.placement.home[applied.task], applied.operand))
}

/// The same, had it this function.
fn had(state: &State, applied: &Applied, function: u8) -> Option<(u8, u32)> {
    let applied = Applied {
        function,
        ..*applied
    };
    right(state, &applied)
}

/// What is printed for a run whose logs are made so.
fn printed_with(run: &Run, taken: Taken) -> String {
    let mut state = State::start(run.placement.clone()).expect("an accepted placement");
    let mut logs = vec![Log::default(); run.placement.registers.len()];
    for &(code, argument) in &run.steps {
        let step = state.allowed(code, argument).ok();
        if let Some(applied) = step.and_then(|step| Applied::by(&state, step)) {
            let log = &mut logs[applied.register];
            let (cards, operands): (Vec<u8>, Vec<u32>) =
                taken(&state, &applied).into_iter().unzip();
            log.cards.extend(cards);
            log.operands.extend(operands);
        }
        state.step_reached(code, argument);
    }
    text(run, &logs)
}

const WRONG: [(&str, Taken); 9] = [
    ("of every holder", |state, applied| {
        let home = state.placement.home[applied.task];
        (applied.function == 5).then_some((home, applied.operand))
    }),
    ("of the lowest holder", |state, applied| {
        let home = state.placement.home[applied.task];
        let lowest = state.holders(applied.register).trailing_zeros() as usize;
        (applied.function == 5 && applied.card == lowest).then_some((home, applied.operand))
    }),
    ("of home, where that holds a copy", |state, applied| {
        let home = state.home(applied.task);
        match has(state.holders(applied.register), home) {
            true if applied.function == 5 && applied.card == home => {
                Some((home as u8, applied.operand))
            }
            true => None,
            false => right(state, applied),
        }
    }),
    ("of every function", |state, applied| had(state, applied, 5)),
    ("of function 2 too", |state, applied| {
        match applied.function {
            2 => had(state, applied, 5),
            _ => right(state, applied),
        }
    }),
    ("by the card that applies it", |state, applied| {
        right(state, applied).map(|(_, operand)| (applied.card as u8, operand))
    }),
    ("by task", |state, applied| {
        right(state, applied).map(|(_, operand)| (applied.task as u8 % 8, operand))
    }),
    ("not where it is performed", |state, applied| {
        let home = only(state.home(applied.task));
        right(state, applied).filter(|_| state.holders(applied.register) != home)
    }),
    ("not of a home without a copy", |state, applied| {
        let home = state.home(applied.task);
        right(state, applied).filter(|_| has(state.holders(applied.register), home))
    }),
];

/// By those that can be read, so without `full`.
#[test]
fn each_wrong_log_is_noticed() {
    let mut cases = cases();
    cases.pop();
    let runs = cases.iter().filter_map(|case| Run::read(&case.file).ok());
    let runs: Vec<Run> = runs.collect();
    for run in &runs {
        assert_eq!(printed_with(run, right), sums(&run.write()));
    }
    for (name, wrong) in WRONG {
        let noticed = |run: &Run| printed_with(run, wrong) != printed_with(run, right);
        assert!(runs.iter().any(noticed), "{name}");
    }
}
