//! What was compared, and what must be among it.

use std::collections::BTreeMap;
use std::fmt;

use crate::generate::logs::{CORNERS, LONG};
use crate::model::totals::Log;

/// What was compared.
#[derive(Clone, Debug, Default)]
pub struct Compared {
    /// Logs by refusal.
    pub logs: BTreeMap<u8, usize>,
    /// How many of them have each thing of `THINGS`.
    pub things: [usize; THINGS.len()],
    pub runs: usize,
    /// Logs of registers of runs whose primary has applied updates by function 5 alone: how many have
    /// updates, those of several cards, and those whose total came round.
    pub alone: [usize; 3],
    /// Those with updates whose primary has also applied others, and how many totals are not the copy.
    pub mixed: [usize; 2],
}

/// A thing that generated logs must have, and whether one has it.
type Thing = (&'static str, fn(&Log) -> bool);

fn above(log: &Log) -> bool {
    log.cards.iter().any(|&card| card > 7)
}

fn taken(log: &Log) -> bool {
    log.cards.len() == log.operands.len() && !above(log)
}

/// Of one length, with this card above 7 and no other such.
fn only(log: &Log, above: u8) -> bool {
    let mut cards = log.cards.iter().filter(|&&card| card > 7);
    log.cards.len() == log.operands.len() && cards.next() == Some(&above) && cards.next().is_none()
}

/// Whether the exact sum of operands is past the largest word.
fn past(operands: &[u32]) -> bool {
    operands
        .iter()
        .map(|&operand| operand as u128)
        .sum::<u128>()
        > u32::MAX as u128
}

fn of_card(log: &Log, card: u8) -> Vec<u32> {
    let pairs = log.cards.iter().zip(&log.operands);
    let pairs = pairs.filter(|(&other, _)| other == card);
    pairs.map(|(_, &operand)| operand).collect()
}

/// Whether some card's group comes round.
fn group_past(log: &Log) -> bool {
    (0..8).any(|card| past(&of_card(log, card)))
}

/// How many cards have a group.
fn many(log: &Log) -> usize {
    (0..8).filter(|card| log.cards.contains(card)).count()
}

const THINGS: [Thing; 18] = [
    ("no updates", |log| taken(log) && log.cards.is_empty()),
    ("65,535 updates", |log| {
        taken(log) && log.cards.len() == LONG[0]
    }),
    ("200,000 updates", |log| {
        taken(log) && log.cards.len() == LONG[1]
    }),
    ("all eight cards", |log| taken(log) && many(log) == 8),
    ("card 7", |log| taken(log) && log.cards.contains(&7)),
    ("operand 0", |log| {
        taken(log) && log.operands.contains(&CORNERS[0])
    }),
    ("operand 1", |log| {
        taken(log) && log.operands.contains(&CORNERS[1])
    }),
    ("operand 2^31", |log| {
        taken(log) && log.operands.contains(&CORNERS[2])
    }),
    ("operand 2^32 - 1", |log| {
        taken(log) && log.operands.contains(&CORNERS[3])
    }),
    ("a group that comes round", |log| {
        taken(log) && group_past(log)
    }),
    ("groups that come round only together", |log| {
        taken(log) && past(&log.operands) && !group_past(log)
    }),
    ("3 for more cards", |log| {
        !above(log) && log.cards.len() > log.operands.len()
    }),
    ("3 for more operands", |log| {
        !above(log) && log.cards.len() < log.operands.len()
    }),
    ("3 for an empty list", |log| {
        log.cards.is_empty() != log.operands.is_empty()
    }),
    ("3 where 14 would come too", |log| {
        above(log) && log.cards.len() != log.operands.len()
    }),
    ("14 for card 8 alone", |log| only(log, 8)),
    ("14 for card 255 alone", |log| only(log, 255)),
    ("14 for the last card alone", |log| {
        log.cards
            .last()
            .is_some_and(|&last| last > 7 && only(log, last))
    }),
];

/// Logs of runs that must be there, of a thousand items.
const LEAST: [(&str, usize); 5] = [
    ("of function 5 alone", 1_000),
    ("of several cards", 500),
    ("that came round", 500),
    ("with other functions", 200),
    ("with another total than the copy", 200),
];

impl Compared {
    /// A generated log, with its refusal.
    pub fn add(&mut self, log: &Log, refusal: u8) {
        *self.logs.entry(refusal).or_default() += 1;
        for (count, (_, has)) in self.things.iter_mut().zip(THINGS) {
            *count += has(log) as usize;
        }
    }

    /// The log of a run for a register whose primary has also applied so many others.
    pub fn add_of_run(&mut self, log: &Log, others: usize, is_copy: bool) {
        if log.cards.is_empty() {
            return;
        }
        if others == 0 {
            let found = [true, many(log) > 1, past(&log.operands)];
            for (count, found) in self.alone.iter_mut().zip(found) {
                *count += found as usize;
            }
        } else {
            self.mixed[0] += 1;
            self.mixed[1] += !is_copy as usize;
        }
    }

    /// What was never reached, or not often enough.
    pub fn missing(&self) -> Vec<String> {
        let things = THINGS.iter().zip(self.things);
        let things = things.filter(|(_, count)| *count == 0);
        let things = things.map(|((name, _), _)| format!("logs, {name}"));
        let counts = self.alone.into_iter().chain(self.mixed);
        let runs = LEAST.iter().zip(counts);
        let runs = runs.filter(|((_, least), count)| count < least);
        let runs = runs.map(|((name, least), _)| format!("{least} logs of runs {name}"));
        things.chain(runs).collect()
    }
}

impl fmt::Display for Compared {
    fn fmt(&self, f: &mut fmt::Formatter) -> fmt::Result {
        let logs: usize = self.logs.values().sum();
        let results = self.logs.iter();
        let results = results.map(|(refusal, count)| format!("{refusal}: {count}"));
        let results = results.collect::<Vec<_>>().join(", ");
        let ([alone, several, round], [mixed, others]) = (self.alone, self.mixed);
        let runs = self.runs;
        writeln!(f, "logs {logs}, by refusal  {results}")?;
        write!(
            f,
            "runs {runs}: logs of function 5 alone {alone}, each total its copy; \
             of several cards {several}, come round {round}; \
             logs beside other functions {mixed}, total not the copy {others}"
        )
    }
}
