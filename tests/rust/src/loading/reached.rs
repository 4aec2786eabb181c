//! What was compared of loads, and what must be reached.

use std::collections::BTreeMap;
use std::fmt;

use crate::generate::loads::{SEEDS, TOO_MANY};
use crate::model::files::Run;
use crate::model::load::{reasons, Load};
use crate::model::results::taken;

/// How often each thing came.
type Counts<T> = BTreeMap<T, usize>;

#[derive(Clone, Debug, Default)]
pub struct Compared {
    pub loads: usize,
    pub drawn: usize,
    /// Loads refused for a single reason, by that.
    pub alone: Counts<&'static str>,
    /// Loads refused with 3 whose placement has a fault of 4.
    pub both: usize,
    /// Loads drawn, by each of their sizes and by seed; refused ones by how many steps are too many.
    pub sizes: Counts<(&'static str, usize)>,
    pub seeds: Counts<u32>,
    pub too_many: Counts<u32>,
    /// Steps drawn, by code and by function; how many are taken.
    pub codes: Counts<u8>,
    pub functions: Counts<u8>,
    pub steps: usize,
    pub taken: usize,
    /// Calls by refusal.
    pub calls: Counts<u8>,
    /// Calls by the output's length less the file's, of accepted loads.
    pub room: Counts<isize>,
    /// Calls with no output at all, by refusal.
    pub empty: Counts<u8>,
}

/// Sizes of loads that must be drawn.
const SIZES: [(&str, &[usize]); 4] = [
    ("cards", &[1, 8]),
    ("registers", &[1, 32]),
    ("tasks", &[1, 16]),
    ("steps", &[0, 1, 255, 256, 257, 4_095, 4_096]),
];

fn count<T: Ord>(counts: &mut Counts<T>, thing: T) {
    *counts.entry(thing).or_default() += 1;
}

impl Compared {
    /// A call with an output of so many bytes, where the file has so many.
    pub(super) fn add_call(&mut self, refusal: u8, lent: usize, length: usize) {
        count(&mut self.calls, refusal);
        if matches!(refusal, 0 | 5) {
            count(&mut self.room, lent as isize - length as isize);
        }
        if lent == 0 {
            count(&mut self.empty, refusal);
        }
    }

    /// A load with its file, if there is one, and the results of its steps.
    pub(super) fn add(&mut self, load: &Load, file: Option<Vec<u8>>, results: &[u8]) {
        self.loads += 1;
        let faults = load.faults();
        if let &[(_, reason)] = &faults[..] {
            count(&mut self.alone, reason);
        }
        let unplaced = load.tables().misplaced();
        self.both += usize::from(unplaced && faults.iter().any(|&(refusal, _)| refusal == 3));
        if load.steps > 4_096 {
            count(&mut self.too_many, load.steps);
        }
        let Some(run) = file.and_then(|file| Run::read(&file).ok()) else {
            return;
        };
        self.drawn += 1;
        count(&mut self.seeds, load.seed);
        let lengths = [load.copies.len(), load.homes.len(), run.steps.len()];
        let sizes = [load.cards as usize].into_iter().chain(lengths);
        for ((name, _), size) in SIZES.into_iter().zip(sizes) {
            count(&mut self.sizes, (name, size));
        }
        for (code, [_, _, function, ..]) in run.steps {
            count(&mut self.codes, code);
            count(&mut self.functions, function);
        }
        self.steps += results.len();
        self.taken += results.iter().filter(|&&result| taken(result)).count();
    }

    /// What was never reached.
    pub fn missing(&self) -> Vec<String> {
        let mut missing = Vec::new();
        let mut need = |name: String, reached: bool| {
            if !reached {
                missing.push(name);
            }
        };
        for refusal in [0, 3, 4, 5] {
            let reached = self.calls.contains_key(&refusal);
            need(format!("calls with {refusal}"), reached);
        }
        for refusal in 3..=5 {
            let reached = self.empty.contains_key(&refusal);
            need(format!("calls without an output, {refusal}"), reached);
        }
        for (refusal, reason) in reasons() {
            let reached = self.alone.contains_key(reason);
            need(format!("{refusal} alone for {reason}"), reached);
        }
        need("3 where 4 would come too".into(), self.both > 0);
        for (name, sizes) in SIZES {
            for &size in sizes {
                let reached = self.sizes.contains_key(&(name, size));
                need(format!("loads drawn, {name} {size}"), reached);
            }
        }
        for seed in SEEDS {
            let reached = self.seeds.contains_key(&seed);
            need(format!("loads drawn, seed {seed}"), reached);
        }
        for steps in TOO_MANY.into_iter().skip(1) {
            let reached = self.too_many.contains_key(&steps);
            need(format!("loads refused, steps {steps}"), reached);
        }
        for code in 1..=10 {
            let reached = self.codes.contains_key(&code);
            need(format!("steps drawn, code {code}"), reached);
        }
        for function in 1..=5 {
            let reached = self.functions.contains_key(&function);
            need(format!("steps drawn, function {function}"), reached);
        }
        need("steps taken".into(), self.taken > 0);
        for room in -1..=1 {
            let reached = self.room.contains_key(&room);
            need(format!("outputs longer by {room}"), reached);
        }
        let far = self.room.range(2..).next();
        need("outputs far longer".into(), far.is_some());
        missing
    }
}

impl fmt::Display for Compared {
    fn fmt(&self, f: &mut fmt::Formatter) -> fmt::Result {
        let Compared {
            loads,
            drawn,
            steps,
            taken,
            ..
        } = self;
        let calls: usize = self.calls.values().sum();
        let results = self.calls.iter();
        let results = results.map(|(refusal, count)| format!("{refusal}: {count}"));
        let results = results.collect::<Vec<_>>().join(", ");
        write!(
            f,
            "loads {loads}, drawn {drawn}, with {steps} steps, taken {taken}; calls {calls}, by refusal  {results}"
        )
    }
}
