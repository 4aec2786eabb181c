//! The logs of a run (RULES 16.6): what the primary of each register has applied by function 5, in the
//! order applied there.

#[cfg(test)]
mod tests;

use crate::applied::Applied;
use crate::model::files::Run;
use crate::model::step::Step;
use crate::model::totals::Log;
use crate::model::State;

#[derive(Clone, Debug, Default, PartialEq, Eq)]
pub struct Logs {
    /// By register.
    pub logs: Vec<Log>,
    /// By register: how many updates by another function its primary has applied.
    pub others: Vec<usize>,
}

impl Logs {
    /// Before the first step.
    pub fn new(registers: usize) -> Logs {
        Logs {
            logs: vec![Log::default(); registers],
            others: vec![0; registers],
        }
    }

    /// Looks at a step that is about to be taken.
    pub fn see(&mut self, state: &State, step: Step) {
        let Some(applied) = Applied::by(state, step) else {
            return;
        };
        let register = applied.register;
        if applied.card != state.placement.registers[register].primary as usize {
            return;
        }
        if applied.function == 5 {
            let log = &mut self.logs[register];
            log.cards.push(state.placement.home[applied.task]);
            log.operands.push(applied.operand);
        } else {
            self.others[register] += 1;
        }
    }

    /// Those of a whole run, and the state that it leads to.
    pub fn of(run: &Run) -> (Logs, State) {
        let mut state = State::start(run.placement.clone()).expect("an accepted placement");
        let mut logs = Logs::new(run.placement.registers.len());
        for &(code, argument) in &run.steps {
            if let Ok(step) = state.allowed(code, argument) {
                logs.see(&state, step);
            }
            state.step_reached(code, argument);
        }
        (logs, state)
    }
}
