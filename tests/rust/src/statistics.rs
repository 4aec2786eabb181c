//! What run files contain: refused files, results of steps, sizes, the longest queues, messages and
//! values. `needed` says what generated files must reach.

mod largest;
mod needed;
mod print;
#[cfg(test)]
mod tests;

use std::collections::BTreeMap;

use crate::applied::Applied;
use crate::generate::Kind;
use crate::model::channel::Body;
use crate::model::files::{RawStep, Run};
use crate::model::results::taken;
use crate::model::step::Step;
use crate::model::{Request, State, Task, Value};
pub use largest::{Largest, LIMITS};
pub use needed::{by_hand, faults, none_missing, FILES, STATES};

/// How often each thing came.
type Counts<T> = BTreeMap<T, usize>;

fn count<T: Ord>(counts: &mut Counts<T>, thing: T) {
    *counts.entry(thing).or_default() += 1;
}

#[derive(Clone, Debug, Default)]
pub struct Statistics {
    pub kinds: Counts<String>,
    /// Files by refusal; accepted ones by 0.
    pub files: Counts<u8>,
    /// Accepted files by number of cards, registers, tasks and steps.
    pub cards: Counts<usize>,
    pub registers: Counts<usize>,
    pub tasks: Counts<usize>,
    pub lengths: Counts<usize>,
    /// Steps by result.
    pub results: Counts<u8>,
    /// Steps taken by code; steps 8 taken by result; those that ask for an update by function.
    pub codes: Counts<u8>,
    pub arrivals: Counts<u8>,
    pub functions: Counts<u8>,
    /// Sums that an update made of a copy, by function and where they lie.
    pub sums: Counts<(u8, Sum)>,
    pub delivered: Counts<Delivered>,
    /// Values above 0 that reads and updates reported, by how they came to the task.
    pub read: Counts<Way>,
    pub found: Counts<Way>,
    pub largest: Largest,
    /// How many runs reached each limit.
    pub reached: [usize; 5],
}

/// The four kinds of message (RULES 1.7).
#[derive(Clone, Copy, Debug, PartialEq, Eq, PartialOrd, Ord)]
pub enum Delivered {
    Read,
    Update,
    ReadReply,
    UpdateReply,
}

/// How a task came by the value that it reports.
#[derive(Clone, Copy, Debug, PartialEq, Eq, PartialOrd, Ord)]
pub enum Way {
    /// By step 3, from the copy at home.
    Performed,
    /// By an update message, from the copy at home.
    Delivered,
    /// From another card's copy.
    InReply,
}

/// Where v + w lies: at the largest word, one past it, or further past it.
#[derive(Clone, Copy, Debug, PartialEq, Eq, PartialOrd, Ord)]
pub enum Sum {
    AtTheTop,
    OnePast,
    FurtherPast,
}

impl Sum {
    pub fn of(v: u32, w: u32) -> Option<Sum> {
        match (v as u64 + w as u64).checked_sub(u32::MAX as u64)? {
            0 => Some(Sum::AtTheTop),
            1 => Some(Sum::OnePast),
            _ => Some(Sum::FurtherPast),
        }
    }
}

impl Statistics {
    /// Adds one file.
    pub fn add(&mut self, kind: Kind, file: &[u8]) {
        count(&mut self.kinds, format!("{kind:?}"));
        let run = Run::read(file);
        count(&mut self.files, run.as_ref().err().copied().unwrap_or(0));
        if let Ok(run) = run {
            self.add_run(run);
        }
    }

    pub fn steps(&self) -> usize {
        self.results.values().sum()
    }

    fn add_run(&mut self, run: Run) {
        count(&mut self.cards, run.placement.cards as usize);
        count(&mut self.registers, run.placement.registers.len());
        count(&mut self.tasks, run.placement.home.len());
        count(&mut self.lengths, run.steps.len());
        let state = State::start(run.placement).expect("an accepted placement");
        self.add_steps(state, &run.steps);
    }

    /// Adds the steps of one run, from its start.
    pub fn add_steps(&mut self, mut state: State, steps: &[RawStep]) {
        let mut ways = vec![Way::Performed; state.tasks.len()];
        let mut largest = Largest::default();
        for &(code, argument) in steps {
            if let Ok(step) = state.allowed(code, argument) {
                count(&mut self.codes, code);
                self.see(&state, step, &mut ways);
            }
            let (result, _) = state.step_reached(code, argument);
            count(&mut self.results, result);
            if taken(result) {
                largest.see(&state.channel);
                if code == 8 {
                    count(&mut self.arrivals, result);
                }
            }
        }
        for (total, reached) in self.reached.iter_mut().zip(largest.reached()) {
            *total += reached as usize;
        }
        self.largest.join(&largest);
    }

    /// Looks at a step that is about to be taken.
    fn see(&mut self, state: &State, step: Step, ways: &mut [Way]) {
        match step {
            Step::RequestUpdate { function, .. } => count(&mut self.functions, function),
            Step::Perform { task } => ways[task] = Way::Performed,
            Step::Deliver { card } => {
                let message = state.channel.inbox[card].front().expect("a message");
                let kind = match message.body {
                    Body::Request(Request::Read { .. }) => Delivered::Read,
                    Body::Request(Request::Update { .. }) => Delivered::Update,
                    Body::Reply { value } => match value {
                        Value::Read(_) => Delivered::ReadReply,
                        Value::Found(_) => Delivered::UpdateReply,
                    },
                };
                count(&mut self.delivered, kind);
                match kind {
                    Delivered::Read => {}
                    Delivered::Update if state.home(message.task) != card => {}
                    Delivered::Update => ways[message.task] = Way::Delivered,
                    _ => ways[message.task] = Way::InReply,
                }
            }
            Step::Report { task } => match state.tasks[task] {
                Task::Done(Value::Read(value)) if value != 0 => count(&mut self.read, ways[task]),
                Task::Done(Value::Found(found)) if found != 0 => count(&mut self.found, ways[task]),
                _ => {}
            },
            _ => {}
        }
        self.see_sum(Applied::by(state, step));
    }

    /// Looks at an update that is about to be applied.
    fn see_sum(&mut self, applied: Option<Applied>) {
        if let Some(Applied {
            function: function @ (2 | 5),
            operand,
            found,
            ..
        }) = applied
        {
            if let Some(sum) = Sum::of(found, operand) {
                count(&mut self.sums, (function, sum));
            }
        }
    }
}
