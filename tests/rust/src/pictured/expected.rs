//! The marks of a run by the model: it is played step by step, and messages are followed beside it
//! (`followed`).

use super::followed::Messages;
use super::marks::{Marks, Op, Place, StepMark, ValueMark};
use crate::model::files::{RawStep, Run};
use crate::model::placement::Placement;
use crate::model::results::{taken, HELD};
use crate::model::step::Step;
use crate::model::{Card, State};

/// A run at one of its steps.
struct Player {
    state: State,
    messages: Messages,
    /// By task, the operation that it asked for last.
    open: Vec<Option<Op>>,
    operations: usize,
    marks: Marks,
}

/// What a diagram of this run must say.
pub fn marks(run: &Run) -> Marks {
    let state = State::start(run.placement.clone()).expect("an accepted placement");
    let (cards, tasks) = (run.placement.cards as usize, run.placement.home.len());
    let mut player = Player {
        state,
        messages: Messages::new(cards, tasks),
        open: vec![None; tasks],
        operations: 0,
        marks: Marks::default(),
    };
    for (place, &step) in run.steps.iter().enumerate() {
        player.play(place, step);
    }
    player.marks.messages = player.messages.marks();
    player.marks
}

/// The card named in byte 0, or the home of the task named there; none if that is absent.
fn named((code, argument): RawStep, placement: &Placement) -> Option<Card> {
    let first = argument[0];
    match code {
        6 | 7 | 9 => Some(first).filter(|&card| placement.present(card)),
        1..=5 | 8 | 10 => placement.home.get(first as usize).copied(),
        _ => None,
    }
    .map(usize::from)
}

impl Player {
    fn play(&mut self, place: Place, (code, argument): RawStep) {
        let step = self.state.allowed(code, argument).ok();
        let copies = self.state.copies.clone();
        let (result, value) = self.state.step_reached(code, argument);
        assert_eq!(step.is_some(), taken(result), "place {place}");
        let mut mark = StepMark {
            place,
            code,
            result,
            card: named((code, argument), &self.state.placement),
            ..StepMark::default()
        };
        if let Some(step) = step {
            self.take(step, &mut mark);
            mark.value = (code == 10).then_some(value);
            self.values(&copies, &mark);
        }
        self.marks.steps.push(mark);
        self.messages.same(&self.state);
    }

    /// Follows a step that was taken.
    fn take(&mut self, step: Step, mark: &mut StepMark) {
        let place = mark.place;
        mark.op = match step {
            Step::RequestRead { task, .. } | Step::RequestUpdate { task, .. } => {
                self.open[task] = Some(self.operations);
                self.operations += 1;
                self.open[task]
            }
            Step::Perform { task } | Step::Report { task } => self.open[task],
            Step::SendRead { task, .. } | Step::SendUpdate { task } => {
                let op = self.open[task].expect("an open operation");
                self.joins(op, self.state.home(task), place);
                Some(op)
            }
            Step::Dispatch { card } => Some(self.messages.dispatched(card, place)),
            Step::TakeBroadcast { card } => {
                let (op, frees) = self.messages.broadcast_taken(card, place);
                mark.frees = frees;
                Some(op)
            }
            Step::TakeSingle { task } => {
                let held = mark.result == HELD;
                let (op, card) = self.messages.single_taken(task, held, place);
                mark.card = Some(card);
                Some(op)
            }
            Step::Deliver { card } => {
                let op = self.messages.delivered(card, place);
                if self.state.channel.outbox[card].len() > self.messages.waiting(card) {
                    self.joins(op, card, place);
                }
                Some(op)
            }
        };
    }

    /// The last message of an outbox has just joined it.
    fn joins(&mut self, op: Op, card: Card, place: Place) {
        let last = self.state.channel.outbox[card].back();
        let message = last.expect("a message that joined");
        self.messages.joins(op, card, message, place);
    }

    /// Marks the copies that are others than before.
    fn values(&mut self, before: &[u32], mark: &StepMark) {
        let (place, cards) = (mark.place, self.state.placement.cards as usize);
        let pairs = before.iter().zip(&self.state.copies).enumerate();
        for (at, (_, &value)) in pairs.filter(|(_, (before, after))| before != after) {
            self.marks.values.push(ValueMark {
                place,
                card: at % cards,
                register: at / cards,
                value,
                op: mark.op.expect("an operation of a taken step"),
            });
        }
    }
}
