//! Updates as cards apply them (RULES 12.6), and that every holder finds the same value for an update
//! (12.13), which is the one that its task reports (5.15).

use std::collections::BTreeMap;

use crate::model::channel::Body;
use crate::model::step::Step;
use crate::model::{Card, Register, Request, State, Task, TaskNumber};

/// An update on one card.
#[derive(Clone, Copy, Debug, PartialEq, Eq)]
pub struct Applied {
    pub task: TaskNumber,
    pub card: Card,
    pub register: Register,
    pub function: u8,
    pub operand: u32,
    /// The value of the card's copy just before.
    pub found: u32,
}

impl Applied {
    /// What a step that is about to be taken applies, if it applies an update.
    pub fn by(state: &State, step: Step) -> Option<Applied> {
        let (task, card, request) = match step {
            Step::Perform { task } => match state.tasks[task] {
                Task::Asking(request) => (task, state.home(task), request),
                _ => return None,
            },
            Step::Deliver { card } => {
                let message = state.channel.inbox[card].front()?;
                match message.body {
                    Body::Request(request) => (message.task, card, request),
                    Body::Reply { .. } => return None,
                }
            }
            _ => return None,
        };
        let Request::Update {
            register,
            function,
            operand,
        } = request
        else {
            return None;
        };
        Some(Applied {
            task,
            card,
            register,
            function,
            operand,
            found: state.copy(card, register),
        })
    }
}

/// An update: its task, its register, and how many such there were before.
type Update = (TaskNumber, Register, usize);

/// The updates of a run, each as the first card that applied it had it.
#[derive(Clone, Debug, Default)]
pub struct Updates {
    asked: BTreeMap<(TaskNumber, Register), usize>,
    /// What a task asked for last, if that is an update.
    open: BTreeMap<TaskNumber, Update>,
    applied: BTreeMap<(Card, TaskNumber, Register), usize>,
    first: BTreeMap<Update, Applied>,
    /// How many times a further card applied one.
    pub again: usize,
}

impl Updates {
    /// Looks at a taken step: the state before it, and the value answered. Says where a card finds
    /// another value for an update than the first one did, or its task reports another.
    pub fn see(&mut self, before: &State, step: Step, value: u32) -> Result<(), String> {
        match step {
            Step::RequestRead { task, .. } => {
                self.open.remove(&task);
            }
            Step::RequestUpdate { task, register, .. } => {
                let number = next(&mut self.asked, (task, register));
                self.open.insert(task, (task, register, number));
            }
            Step::Report { task } => {
                if let Some(update) = self.open.get(&task) {
                    let found = self.first.get(update).map(|first| first.found);
                    if found != Some(value) {
                        return Err(format!("{update:?} reports {value}, not {found:?}"));
                    }
                }
            }
            _ => {}
        }
        match Applied::by(before, step) {
            Some(here) => self.apply(here),
            None => Ok(()),
        }
    }

    fn apply(&mut self, here: Applied) -> Result<(), String> {
        let (task, register) = (here.task, here.register);
        // Those of one task come to a card in their order: each is reported before the next is asked for.
        let number = next(&mut self.applied, (here.card, task, register));
        let first = self.first.entry((task, register, number)).or_insert(here);
        let card = here.card;
        if here != (Applied { card, ..*first }) {
            return Err(format!("{here:?}, and {first:?}"));
        }
        self.again += (card != first.card) as usize;
        Ok(())
    }
}

/// How many there were; one more now.
fn next<T: Ord>(counts: &mut BTreeMap<T, usize>, thing: T) -> usize {
    let count = counts.entry(thing).or_default();
    *count += 1;
    *count - 1
}

#[cfg(test)]
mod tests {
    use super::*;
    use crate::model::files::Run;
    use crate::named;

    /// A named run from these copies of register 0, all reports of which give so much more; how many
    /// times a further card applied an update.
    fn seen(name: &str, copies: [u32; 3], more: u32) -> Result<usize, String> {
        let mut runs = named::runs().into_iter();
        let run = runs.find(|run| run.name == name).expect("a named run");
        let run = Run::read(&run.file).expect("an accepted file");
        let cards = run.placement.cards as usize;
        let mut state = State::start(run.placement).expect("an accepted placement");
        for (copy, value) in state.copies.iter_mut().take(cards).zip(copies) {
            *copy = value;
        }
        let mut updates = Updates::default();
        for (code, argument) in run.steps {
            let before = state.clone();
            let step = state.allowed(code, argument);
            let (_, value) = state.step(code, argument);
            if let Ok(step) = step {
                updates.see(&before, step, value + more)?;
            }
        }
        Ok(updates.again)
    }

    /// The first update of both comes to cards 0 and 1, of one also to card 2; the others to card 1
    /// alone. Nothing of K12 is delivered there.
    #[test]
    fn by_hand() {
        assert_eq!(seen("K9", [0; 3], 0), Ok(1));
        assert_eq!(seen("two-held", [0; 3], 0), Ok(2));
        assert_eq!(seen("K12", [0; 3], 0), Ok(0));
        assert_eq!(seen("counter", [0; 3], 0), Ok(0));
    }

    /// Copies that were not alike; card 2 delivers nothing of K9.
    #[test]
    fn another_value_is_noticed() {
        assert_eq!(seen("K9", [5, 5, 5], 0), Ok(1));
        assert_eq!(seen("K9", [5, 5, 6], 0), Ok(1));
        assert!(seen("K9", [5, 6, 5], 0).is_err());
        assert!(seen("two-held", [5, 5, 6], 0).is_err());
    }

    /// Only reads are reported in K9; its task 2 never reports.
    #[test]
    fn another_report_is_noticed() {
        assert_eq!(seen("K9", [0; 3], 1), Ok(1));
        for name in ["K2", "counter", "K11", "two-held"] {
            let said = seen(name, [0; 3], 1).unwrap_err();
            assert!(said.contains("reports 1, not Some(0)"), "{name}: {said}");
        }
    }
}
