//! The program `load` on generated arguments and files, good ones and refused, against the model's
//! bytes or message; and what these must reach.

#[cfg(test)]
mod tests;

use std::collections::BTreeMap;
use std::fmt;

use super::cases::{cases, Case};
use super::{load, WANTED};
use crate::generate::{self, loads, Kind};
use crate::model::files::Run;
use crate::model::load::Load;
use crate::random::Random;
use crate::roundtrip::{did, Ended};

/// Runs the program with these arguments on an input.
pub type Runner<'a> = &'a dyn Fn(&[String], &[u8]) -> Result<Ended, String>;

/// From so many items on, what they must reach is looked for.
pub const ITEMS: u64 = 100;

/// How two good arguments are spoiled.
type Way = (&'static str, fn(&mut Vec<String>, usize));

/// Each is tried of the first and of the second.
const WAYS: [Way; 18] = [
    ("none", |words, _| words.clear()),
    ("one", |words, at| {
        words.remove(at);
    }),
    ("three", |words, at| words.insert(at, "7".into())),
    ("four", |words, _| words.extend(["8".into(), "9".into()])),
    ("an empty one", |words, at| words[at].clear()),
    ("eleven digits", |words, at| {
        words[at] = format!("{:0>11}", words[at]);
    }),
    ("a plus", |words, at| words[at].insert(0, '+')),
    ("a minus", |words, at| words[at].insert(0, '-')),
    ("a space before", |words, at| words[at].insert(0, ' ')),
    ("a space behind", |words, at| words[at].push(' ')),
    ("a newline behind", |words, at| words[at].push('\n')),
    ("a letter", |words, at| words[at].push('k')),
    ("hexadecimal", |words, at| words[at].insert_str(0, "0x")),
    ("a comma", |words, at| words[at].push_str(",0")),
    ("a digit that is no ASCII", |words, at| {
        words[at] = "\u{663}".into();
    }),
    ("one above the most", |words, at| {
        words[at] = ["4294967296", "4097"][at].into();
    }),
    ("ten digits above the most", |words, at| {
        words[at] = "9999999999".into();
    }),
    ("much more than a word holds", |words, at| {
        words[at] = "18446744073709551617".into();
    }),
];

/// What was compared.
#[derive(Clone, Debug, Default)]
pub struct Compared {
    pub drawn: usize,
    /// Files refused, by their message.
    pub refused: BTreeMap<String, usize>,
    /// Wrong arguments, by how they were spoiled.
    pub unwanted: BTreeMap<&'static str, usize>,
    /// Loads drawn, by each of their sizes; their steps by code.
    pub sizes: BTreeMap<(&'static str, usize), usize>,
    pub codes: BTreeMap<u8, usize>,
}

/// Sizes that must be drawn.
const SIZES: [(&str, [usize; 2]); 4] = [
    ("cards", [1, 8]),
    ("registers", [1, 32]),
    ("tasks", [1, 16]),
    ("steps", [0, 4_096]),
];

impl Compared {
    fn add(&mut self, wanted: Wanted) {
        let run = match wanted {
            Ok(file) => Run::read(&file).expect("an accepted file"),
            Err(why) => return *self.refused.entry(why).or_default() += 1,
        };
        self.drawn += 1;
        let (registers, tasks) = (run.placement.registers.len(), run.placement.home.len());
        let cards = run.placement.cards as usize;
        let sizes = [cards, registers, tasks, run.steps.len()];
        for ((name, _), size) in SIZES.into_iter().zip(sizes) {
            *self.sizes.entry((name, size)).or_default() += 1;
        }
        for (code, _) in run.steps {
            *self.codes.entry(code).or_default() += 1;
        }
    }

    /// What was never reached.
    pub fn missing(&self) -> Vec<String> {
        let refusals = (1..=4).map(crate::view::refused);
        let refusals = refusals.filter(|why| !self.refused.contains_key(why));
        let refusals = refusals.map(|why| format!("files {why}"));
        let ways = WAYS.iter().map(|&(name, _)| name);
        let ways = ways.filter(|way| !self.unwanted.contains_key(way));
        let ways = ways.map(|way| format!("arguments, {way}"));
        let sizes = SIZES.into_iter();
        let sizes = sizes.flat_map(|(name, sizes)| sizes.map(|size| (name, size)));
        let sizes = sizes.filter(|size| !self.sizes.contains_key(size));
        let sizes = sizes.map(|(name, size)| format!("loads drawn, {name} {size}"));
        let codes = (1..=10).filter(|code| !self.codes.contains_key(code));
        let codes = codes.map(|code| format!("steps drawn, code {code}"));
        refusals.chain(ways).chain(sizes).chain(codes).collect()
    }
}

impl fmt::Display for Compared {
    fn fmt(&self, f: &mut fmt::Formatter) -> fmt::Result {
        let refused: usize = self.refused.values().sum();
        let unwanted: usize = self.unwanted.values().sum();
        let steps: usize = self.codes.values().sum();
        let drawn = self.drawn;
        write!(
            f,
            "loads {drawn} with {steps} steps, refused files {refused}, wrong arguments {unwanted}"
        )
    }
}

/// The load or the message.
type Wanted = Result<Vec<u8>, String>;

/// What the program does with these, against the model; gives what must come.
fn same(run: Runner, arguments: &[String], file: &[u8]) -> Result<Wanted, String> {
    let wanted = load(arguments, file);
    did("load", "load", run(arguments, file)?, &wanted)
        .map_err(|words| format!("{arguments:?}, {} bytes: {words}", file.len()))?;
    Ok(wanted)
}

/// A number in decimal, sometimes with zeros before it.
fn word(random: &mut Random, number: u32) -> String {
    let width = random.pick(&[0, 0, 0, 4, 10]);
    format!("{number:0>width$}")
}

/// A run file with the placement of a load: without steps, with a few, or as it is drawn.
fn carrier(random: &mut Random, load: &Load) -> Vec<u8> {
    let mut run = load.run().expect("a good one");
    let few = random.between(0, 5);
    run.steps.truncate(random.pick(&[0, few, 4_096]));
    run.write()
}

/// The kept cases; how many there are.
pub fn kept(run: Runner) -> Result<usize, String> {
    let cases = cases();
    for Case {
        name,
        arguments,
        file,
    } in &cases
    {
        let wanted = load(arguments, file);
        did("load", name, run(arguments, file)?, &wanted)?;
    }
    Ok(cases.len())
}

/// Compares on one item of a seed: a good load; wrong arguments, in one way after the other;
/// and every second time a file that is mostly refused.
pub fn compare(
    item: u64,
    random: &mut Random,
    run: Runner,
    compared: &mut Compared,
) -> Result<(), String> {
    let of = loads::good(random);
    let arguments = [of.seed, of.steps].map(|number| word(random, number));
    let file = carrier(random, &of);
    compared.add(same(run, &arguments, &file)?);
    let (name, spoil) = WAYS[item as usize % WAYS.len()];
    let mut spoiled = arguments.to_vec();
    spoil(&mut spoiled, random.between(0, 1));
    if same(run, &spoiled, &file)? != Err(WANTED.into()) {
        return Err(format!("{spoiled:?} are good, though spoiled: {name}"));
    }
    *compared.unwanted.entry(name).or_default() += 1;
    if item.is_multiple_of(2) {
        let file = generate::file_of(Kind::Spoiled, random);
        compared.add(same(run, &arguments, &file)?);
    }
    Ok(())
}
