//! Checks of the model against itself on generated files.

use crate::applied::Updates;
use crate::consistency::{consistent, history, operations};
use crate::model::files::{answer_file, write_answer, Run};
use crate::model::results::{taken, HELD};
use crate::model::State;

/// Runs with at most so many operations are tried for a serial order.
const FEW: usize = 40;

#[derive(Clone, Copy, Debug, Default)]
pub struct Checked {
    pub runs: usize,
    pub steps: usize,
    pub orders: usize,
    /// Times that a further holder found the value of an update.
    pub again: usize,
}

/// Checks one file; says what is wrong with it. Refused files pass.
pub fn check(file: &[u8], checked: &mut Checked) -> Result<(), String> {
    let Ok(run) = Run::read(file) else {
        return Ok(());
    };
    if run.write() != file {
        return Err("the file isn't written as it was read".into());
    }
    let mut state = State::start(run.placement.clone()).expect("an accepted placement");
    let mut answers = Vec::new();
    let mut updates = Updates::default();
    for (number, &(code, argument)) in run.steps.iter().enumerate() {
        let before = state.clone();
        let step = state.allowed(code, argument);
        // The step with the check of the state, which no run fails (RULES 8.9).
        let (result, value) = state.step(code, argument);
        if result == 6 {
            return Err(format!("step {number} gives 6"));
        }
        if !taken(result) && (value != 0 || state != before) {
            return Err(format!("step {number} is refused and changes something"));
        }
        if taken(result) && state == before {
            return Err(format!("step {number} is taken and changes nothing"));
        }
        let held = held(&state) > held(&before);
        if (result == HELD) != held || held && (code, value) != (8, 0) {
            return Err(format!("step {number} gives {result}, and holds: {held}"));
        }
        if let Ok(step) = step {
            let seen = updates.see(&before, step, value);
            seen.map_err(|words| format!("step {number}: {words}"))?;
        }
        answers.push((result, value));
    }
    if answer_file(file) != Ok(write_answer(&answers)) {
        return Err("the answer file differs from the steps' answers".into());
    }
    let history = history(&run);
    if run.placement.home.len() <= 3 && operations(&history) <= FEW {
        if !consistent(&history) {
            return Err("no serial order".into());
        }
        checked.orders += 1;
    }
    drained(state)?;
    checked.runs += 1;
    checked.steps += answers.len();
    checked.again += updates.again;
    Ok(())
}

/// How many messages are held, on all cards.
fn held(state: &State) -> usize {
    state.channel.held.iter().map(Vec::len).sum()
}

/// Takes every move that finishes something until none is left: then all tasks are quiet, all
/// queues are empty and the copies of each register are alike.
fn drained(mut state: State) -> Result<(), String> {
    let tasks = state.tasks.len() as u8;
    let cards = state.placement.cards;
    let mut moved = true;
    while moved {
        moved = false;
        let mut attempt = |code: u8, argument: [u8; 8]| {
            moved |= taken(state.step_reached(code, argument).0);
        };
        for task in 0..tasks {
            for code in [3, 5, 8, 10] {
                attempt(code, [task, 0, 0, 0, 0, 0, 0, 0]);
            }
            for chosen in 0..cards {
                attempt(4, [task, chosen, 0, 0, 0, 0, 0, 0]);
            }
        }
        for card in 0..cards {
            for code in [6, 7, 9] {
                attempt(code, [card, 0, 0, 0, 0, 0, 0, 0]);
            }
        }
    }
    let mut started = State::start(state.placement.clone()).expect("an accepted placement");
    started.requests = state.requests;
    started.copies.clone_from(&state.copies);
    started.channel.made = state.channel.made;
    started.channel.recent.clone_from(&state.channel.recent);
    started.channel.taken.fill(state.channel.made);
    if state != started {
        return Err("something never ends".into());
    }
    for (register, place) in state.placement.registers.iter().enumerate() {
        let value = state.copy(place.primary as usize, register);
        for card in 0..cards as usize {
            let holds = place.holders >> card & 1 == 1;
            let expected = if holds { value } else { 0 };
            if state.copy(card, register) != expected {
                return Err(format!("copies of register {register} differ"));
            }
        }
    }
    Ok(())
}

#[cfg(test)]
mod tests {
    use super::*;
    use crate::generate::{file, file_of, Kind};
    use crate::named;
    use crate::random::Random;

    #[test]
    fn generated_and_named_runs_pass() {
        let mut checked = Checked::default();
        let generated = (0..100).map(|item| file(2, item).1);
        let tiny = (0..300).map(|item| file_of(Kind::Tiny, &mut Random::new(2, item)));
        let named = named::runs().into_iter().map(|run| run.file);
        for file in generated.chain(tiny).chain(named) {
            assert_eq!(check(&file, &mut checked), Ok(()));
        }
        assert!(checked.orders > 200);
        assert!(checked.again > 1_000);
    }
}
