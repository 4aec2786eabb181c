//! What generated files must reach, so that a comparison on them means something.

#[cfg(test)]
mod tests;

use super::{Counts, Delivered, Statistics, Sum, Way, LIMITS};
use crate::generate::Kind;
use crate::model::results::{DONE, HELD};
use crate::model::sized::FAULTS;
use crate::model::FUNCTIONS;

/// From so many generated files on, or states made by hand, what they must reach is looked for.
pub const FILES: u64 = 1_000;
pub const STATES: u64 = 10_000;

/// Refusals of a step that a file can cause (RULES 8.2; 6 and 23 it cannot, 12.10).
fn refusals() -> impl Iterator<Item = u8> {
    (10..=15).chain(20..=22).chain(30..=35)
}

/// Results of a taken step; of a step 8, where its message is then (RULES 5.8).
const TAKEN: [u8; 2] = [DONE, HELD];

const SUMS: [(&str, Sum); 3] = [
    ("at the top", Sum::AtTheTop),
    ("one past it", Sum::OnePast),
    ("further past it", Sum::FurtherPast),
];

/// What must be reached, by subject: its name, and how often it was.
pub(super) struct Needed {
    pub subject: &'static str,
    pub items: Vec<(String, usize)>,
}

fn times<T: Ord>(counts: &Counts<T>, thing: T) -> usize {
    counts.get(&thing).copied().unwrap_or(0)
}

fn numbers(subject: &'static str, of: impl Iterator<Item = u8>, counts: &Counts<u8>) -> Needed {
    let items = of.map(|number| (number.to_string(), times(counts, number)));
    Needed {
        subject,
        items: items.collect(),
    }
}

fn words<const N: usize>(subject: &'static str, items: [(&str, usize); N]) -> Needed {
    let items = items.map(|(name, count)| (name.to_string(), count));
    Needed {
        subject,
        items: items.into(),
    }
}

impl Statistics {
    pub(super) fn needed(&self) -> Vec<Needed> {
        let limits = LIMITS
            .named()
            .map(|(name, limit)| format!("{name} {limit}"));
        let limits = limits.into_iter().zip(self.reached);
        let sums = [2, 5].into_iter().flat_map(|function| {
            SUMS.map(|(name, sum)| {
                let count = times(&self.sums, (function, sum));
                (format!("{function} {name}"), count)
            })
        });
        let loads = times(&self.kinds, format!("{:?}", Kind::Load));
        vec![
            words("files that are", [("loads", loads)]),
            numbers("files refused with", 1..=4, &self.files),
            numbers("steps refused with", refusals(), &self.results),
            numbers("steps taken with code", 1..=10, &self.codes),
            numbers("steps 8 taken with", TAKEN.into_iter(), &self.arrivals),
            numbers(
                "updates asked for with function",
                FUNCTIONS,
                &self.functions,
            ),
            Needed {
                subject: "sums made by function",
                items: sums.collect(),
            },
            words(
                "messages delivered",
                [
                    ("read", times(&self.delivered, Delivered::Read)),
                    ("update", times(&self.delivered, Delivered::Update)),
                    (
                        "reply to a read",
                        times(&self.delivered, Delivered::ReadReply),
                    ),
                    (
                        "reply to an update",
                        times(&self.delivered, Delivered::UpdateReply),
                    ),
                ],
            ),
            words(
                "values above 0 read",
                [
                    ("in a copy at home", times(&self.read, Way::Performed)),
                    ("by a reply", times(&self.read, Way::InReply)),
                ],
            ),
            words(
                "values above 0 found by an update",
                [
                    ("performed at home", times(&self.found, Way::Performed)),
                    ("delivered at home", times(&self.found, Way::Delivered)),
                    ("with a reply", times(&self.found, Way::InReply)),
                ],
            ),
            words(
                "files with",
                [
                    ("1 card", times(&self.cards, 1)),
                    ("8 cards", times(&self.cards, 8)),
                    ("1 register", times(&self.registers, 1)),
                    ("32 registers", times(&self.registers, 32)),
                    ("1 task", times(&self.tasks, 1)),
                    ("16 tasks", times(&self.tasks, 16)),
                    ("no steps", times(&self.lengths, 0)),
                    ("4,096 steps", times(&self.lengths, 4_096)),
                ],
            ),
            Needed {
                subject: "runs that met the limit",
                items: limits.collect(),
            },
        ]
    }

    /// What was never reached.
    pub fn missing(&self) -> Vec<String> {
        missing(&self.needed())
    }

    /// Results of a step that a file can cause and that never came.
    pub fn results_missing(&self) -> Vec<u8> {
        let results = TAKEN.into_iter().chain(refusals());
        results.filter(|&n| times(&self.results, n) == 0).collect()
    }
}

fn missing(needed: &[Needed]) -> Vec<String> {
    let never = |one: &Needed| {
        let subject = one.subject;
        let items = one.items.iter().filter(|(_, count)| *count == 0);
        let items = items.map(|(name, _)| format!("{subject} {name}"));
        items.collect::<Vec<_>>()
    };
    needed.iter().flat_map(never).collect()
}

/// What states made by hand never reached: states that are ill sized and some that are not, and
/// from those every result that a step can have (RULES 4.2, 8.2), also 6 for the outcome and 23.
pub fn by_hand(states: usize, ill_sized: usize, results: &Counts<u8>) -> Vec<String> {
    let of = TAKEN.into_iter().chain([6, 23]).chain(refusals());
    missing(&[
        words(
            "states that are",
            [
                ("ill sized", ill_sized),
                ("well sized", states.saturating_sub(ill_sized)),
            ],
        ),
        numbers("steps with result", of, results),
    ])
}

/// The faults of RULES 8.6 that no state made by hand had, of those that a state of the model can
/// have beside the sizes (`State::faults`).
pub fn faults(counts: &Counts<&'static str>) -> Vec<String> {
    let items = FAULTS.iter().map(|&(name, _)| (name, times(counts, name)));
    missing(&[Needed {
        subject: "ill-sized states,",
        items: items.map(|(name, count)| (name.into(), count)).collect(),
    }])
}

/// Fails and names what is missing, if anything is.
pub fn none_missing(missing: Vec<String>) -> Result<(), String> {
    match missing.is_empty() {
        true => Ok(()),
        false => Err(format!("never reached: {}", missing.join("; "))),
    }
}
