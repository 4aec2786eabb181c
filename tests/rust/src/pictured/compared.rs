//! What the pictures of generated files had in them, and what they must have.

use std::collections::BTreeMap;
use std::fmt;

use super::marks::{Kind, Marks, MessageMark, Sort, StepMark, KINDS, SORTS};
use super::waves::Waves;
use crate::model::files::Run;
use crate::model::results::{taken, HELD};
use crate::model::Refusal;

/// From so many files on, what they must reach is looked for.
pub const FILES: u64 = 100;

/// How often each thing came.
type Counts<T> = BTreeMap<T, usize>;

fn count<T: Ord>(counts: &mut Counts<T>, thing: T) {
    *counts.entry(thing).or_default() += 1;
}

/// What pictures had.
#[derive(Clone, Debug, Default)]
pub struct Compared {
    pub files: usize,
    /// Files by refusal.
    pub refused: Counts<Refusal>,
    pub sizes: Counts<(&'static str, usize)>,
    /// Taken steps by code, and refused ones by refusal.
    pub codes: Counts<u8>,
    pub results: Counts<Refusal>,
    pub messages: Counts<Kind>,
    pub stages: Counts<Sort>,
    /// Messages in a stage where the run ends.
    pub left: Counts<Sort>,
    /// What comes seldom, by its name.
    pub seldom: Counts<&'static str>,
    pub steps: usize,
    pub values: usize,
    pub signals: usize,
    pub ticks: usize,
}

/// Sizes that must come.
const SIZES: [(&str, [usize; 2]); 4] = [
    ("cards", [1, 8]),
    ("registers", [1, 32]),
    ("tasks", [1, 16]),
    ("steps", [0, 4_096]),
];

const SELDOM: [&str; 9] = [
    "a step on no card's line",
    "a code that is none",
    "a step that frees one message",
    "a step that frees several",
    "a report of 0",
    "a report of more",
    "a value that is 0 again",
    "an update that changes nothing",
    "a single message that is never dispatched",
];

/// Refusals of a step that a file can cause (RULES 8.2; 6 and 23 it cannot, 12.10).
fn refusals() -> impl Iterator<Item = Refusal> {
    (10..=15).chain(20..=22).chain(30..=35)
}

fn missing<T: Ord>(
    what: &str,
    things: impl IntoIterator<Item = (T, String)>,
    counts: &Counts<T>,
) -> Vec<String> {
    let things = things.into_iter();
    let things = things.filter(|(thing, _)| !counts.contains_key(thing));
    things.map(|(_, name)| format!("{what} {name}")).collect()
}

impl Compared {
    pub fn add_refused(&mut self, refusal: Refusal) {
        self.files += 1;
        count(&mut self.refused, refusal);
    }

    pub fn add(&mut self, run: &Run, marks: &Marks, waves: &Waves) {
        self.files += 1;
        let (registers, tasks) = (run.placement.registers.len(), run.placement.home.len());
        let cards = run.placement.cards as usize;
        let sizes = [cards, registers, tasks, run.steps.len()];
        for ((name, _), size) in SIZES.into_iter().zip(sizes) {
            count(&mut self.sizes, (name, size));
        }
        marks.steps.iter().for_each(|step| self.add_step(step));
        for message in &marks.messages {
            self.add_message(message);
        }
        for value in &marks.values {
            self.seen("a value that is 0 again", value.value == 0);
        }
        // An update message is delivered on its cards; each is a change, or changes nothing.
        let updates = marks.messages.iter();
        let updates = updates.filter(|message| message.kind == Kind::Update);
        let delivered = updates.flat_map(|message| &message.stages);
        let delivered = delivered.filter(|stage| stage.sort == Sort::Inbox);
        for place in delivered.filter_map(|stage| stage.until) {
            let changed = marks.values.iter().any(|value| value.place == place);
            self.seen("an update that changes nothing", !changed);
        }
        self.steps += marks.steps.len();
        self.values += marks.values.len();
        self.signals += waves.signals.len();
        self.ticks += waves.ticks.len();
    }

    fn seen(&mut self, name: &'static str, seen: bool) {
        if seen {
            count(&mut self.seldom, name);
        }
    }

    fn add_step(&mut self, step: &StepMark) {
        count(&mut self.results, step.result);
        if taken(step.result) {
            count(&mut self.codes, step.code);
        }
        let known = (1..=10).contains(&step.code);
        self.seen("a step on no card's line", known && step.card.is_none());
        self.seen("a code that is none", !known);
        self.seen("a step that frees one message", step.frees.len() == 1);
        self.seen("a step that frees several", step.frees.len() > 1);
        self.seen("a report of 0", step.value == Some(0));
        self.seen(
            "a report of more",
            step.value.is_some_and(|value| value > 0),
        );
    }

    fn add_message(&mut self, message: &MessageMark) {
        count(&mut self.messages, message.kind);
        for stage in &message.stages {
            count(&mut self.stages, stage.sort);
            if stage.until.is_none() {
                count(&mut self.left, stage.sort);
            }
        }
        let waits = message.stages.len() == 1;
        let name = "a single message that is never dispatched";
        self.seen(name, waits && message.kind != Kind::Update);
    }

    /// What was never reached.
    pub fn missing(&self) -> Vec<String> {
        let numbers = |numbers: &mut dyn Iterator<Item = u8>| -> Vec<_> {
            numbers.map(|number| (number, number.to_string())).collect()
        };
        let sizes = SIZES.into_iter();
        let sizes = sizes.flat_map(|(name, sizes)| sizes.map(|size| (name, size)));
        let sizes = sizes.map(|size| (size, format!("{} {}", size.0, size.1)));
        let kinds = KINDS.map(|(kind, name)| (kind, name.to_string()));
        let sorts = || SORTS.map(|(sort, name)| (sort, name.to_string()));
        let seldom = SELDOM.map(|name| (name, name.to_string()));
        [
            missing("files refused with", numbers(&mut (1..=4)), &self.refused),
            missing("files with", sizes, &self.sizes),
            missing("taken steps with code", numbers(&mut (1..=10)), &self.codes),
            missing("steps with result", numbers(&mut refusals()), &self.results),
            missing(
                "steps with result",
                numbers(&mut [HELD].into_iter()),
                &self.results,
            ),
            missing("messages of the kind", kinds, &self.messages),
            missing("messages once in", sorts(), &self.stages),
            missing("messages left in", sorts(), &self.left),
            missing("not once", seldom, &self.seldom),
        ]
        .concat()
    }
}

impl fmt::Display for Compared {
    fn fmt(&self, f: &mut fmt::Formatter) -> fmt::Result {
        let times = |sort| self.stages.get(&sort).copied().unwrap_or(0);
        let left = |sort| self.left.get(&sort).copied().unwrap_or(0);
        let kinds = KINDS.map(|(kind, name)| {
            let messages = self.messages.get(&kind).copied().unwrap_or(0);
            format!("{messages} {name}")
        });
        let lefts = SORTS.map(|(sort, name)| format!("{} {name}", left(sort)));
        let held = times(Sort::Hold);
        let refused: usize = self.refused.values().sum();
        write!(
            f,
            "pictures of {} files, {refused} of them refused; steps {}, values {}; messages {}; held {held}, \
             released {}; dropped {}; left in {}; signals {}, ticks {}",
            self.files,
            self.steps,
            self.values,
            kinds.join(", "),
            held - left(Sort::Hold),
            times(Sort::Dropped) - left(Sort::Dropped),
            lefts.join(", "),
            self.signals,
            self.ticks,
        )
    }
}
