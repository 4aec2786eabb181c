//! A drawer of loads against the model's (`model::load`): on seeds at their ends, then on generated
//! seeds, placements and numbers of steps, into outputs of many lengths; and the answer of each file.
//! `reached` has what these must reach.

mod reached;
#[cfg(test)]
mod tests;

use crate::generate::loads;
use crate::model::files::{answer_file, Run};
use crate::model::load::Load;
use crate::model::write::Tables;
use crate::random::Random;
use crate::writing::compare_lent;
pub use reached::Compared;

/// Draws a load into an output: the refusal and the length.
pub type Drawer<'a> = &'a dyn Fn(&Load, &mut [u8]) -> (u8, u32);

/// Answers a run file, or refuses it.
pub type Answerer<'a> = &'a dyn Fn(&[u8]) -> Result<Vec<u8>, u8>;

/// What a comparison is of.
#[derive(Clone, Copy)]
pub struct Compares<'a> {
    pub drawer: Drawer<'a>,
    pub answerer: Answerer<'a>,
}

/// Seeds at their ends, and how many steps they are tried with.
const ENDS: [u32; 4] = [0, 1, 1 << 31, u32::MAX];
const STEPS: [u32; 9] = [0, 1, 2, 9, 255, 256, 257, 4_095, 4_096];

/// A card with one register and one task; two of each; and as many as there can be.
fn placements() -> [Tables; 4] {
    let of = |cards: u32, tasks: usize, registers: usize| {
        let around = |number: usize| number % cards as usize;
        Tables {
            cards,
            homes: (0..tasks).map(|task| around(task) as u8).collect(),
            copies: (0..registers).map(|one| 1 << around(one)).collect(),
            primaries: (0..registers).map(|one| around(one) as u8).collect(),
            ..Tables::default()
        }
    };
    [of(1, 1, 1), of(2, 2, 2), of(7, 11, 13), of(8, 16, 32)]
}

/// Compares on seeds at their ends; how many loads these are.
pub fn ends(compares: Compares) -> Result<usize, String> {
    let mut count = 0;
    for seed in ENDS {
        for steps in STEPS {
            for tables in placements() {
                let load = Load::new(seed, tables, steps);
                let random = &mut Random::new(seed.into(), steps.into());
                compare_load(&load, random, &mut Compared::default(), compares)?;
                count += 1;
            }
        }
    }
    Ok(count)
}

/// Compares on the load of one item of a seed.
pub fn compare(
    random: &mut Random,
    compared: &mut Compared,
    compares: Compares,
) -> Result<(), String> {
    compare_load(&loads::load(random), random, compared, compares)
}

fn compare_load(
    load: &Load,
    random: &mut Random,
    compared: &mut Compared,
    compares: Compares,
) -> Result<(), String> {
    let file = load.file();
    let said = |words: String| format!("{}: {words}", told(load));
    // As long as the sizes ask for (RULES 3.2), refused ones too.
    let steps = load.steps.min(4_097) as usize;
    let length = 5 + load.homes.len() + 2 * load.copies.len() + 9 * steps;
    let far = length + random.between(2, 40_000);
    for lent in [length, length - 1, length + 1, far, 0] {
        let drawer = |output: &mut [u8]| (compares.drawer)(load, output);
        let model = |output: &mut [u8]| load.write_into(output);
        let refusal = compare_lent(lent, random, drawer, model)
            .map_err(|words| said(format!("{lent} bytes lent: {words}")))?;
        compared.add_call(refusal, lent, file.as_ref().map_or(0, Vec::len));
    }
    let mut results = Vec::new();
    if let Ok(file) = &file {
        same_tables(load, file).map_err(said)?;
        results = answered(file, compares.answerer).map_err(said)?;
    }
    compared.add(load, file.ok(), &results);
    Ok(())
}

/// The sizes of a load, and why it is refused.
fn told(load: &Load) -> String {
    let Load {
        seed,
        cards,
        homes,
        copies,
        primaries,
        steps,
    } = load;
    let lengths = [homes, copies, primaries].map(Vec::len);
    let faults: Vec<&str> = load.faults().into_iter().map(|fault| fault.1).collect();
    format!("seed {seed}, {cards} cards, tables of {lengths:?} bytes, {steps} steps, {faults:?}")
}

/// The reader accepts the file with the placement of the load, and the writer writes it again from its
/// tables.
fn same_tables(load: &Load, file: &[u8]) -> Result<(), String> {
    let run = Run::read(file).map_err(|refusal| format!("the reader refuses it: {refusal}"))?;
    let tables = Tables::of(&run);
    if tables.file().as_deref() != Ok(file) {
        return Err("the writer writes another file".into());
    }
    match Load::new(load.seed, tables, run.steps.len() as u32) == *load {
        true => Ok(()),
        false => Err("the file has another placement".into()),
    }
}

/// The results of the file's steps: those of the model, and none that is for who writes a step.
fn answered(file: &[u8], answerer: Answerer) -> Result<Vec<u8>, String> {
    let found = answerer(file).map_err(|refusal| format!("the file is refused with {refusal}"))?;
    if Ok(&found) != answer_file(file).as_ref() {
        return Err("the file is answered otherwise".into());
    }
    let results = &found[2..2 + (found.len() - 2) / 5];
    match results.iter().position(|result| (10..=15).contains(result)) {
        None => Ok(results.to_vec()),
        Some(place) => Err(format!("step {place} gives {}", results[place])),
    }
}
