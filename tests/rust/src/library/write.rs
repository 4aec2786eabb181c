//! Run files that the library writes from tables (`writing`), by its C signature and by the crate's
//! calls; and its own reader on them.

use gondzselu::{Placement, Refusal, Step, Steps};

use super::c;
use crate::model::write::Tables;
use crate::random::Random;
use crate::writing::{self, Compared, Writer};

/// Compares on the tables of one item of a seed, by one of the calls.
pub fn compare(random: &mut Random, compared: &mut Compared) -> Result<(), String> {
    let writer: Writer = random.pick(&[&c::write as Writer, &bytes, &typed]);
    let Some(file) = writing::compare(random, compared, writer)? else {
        return Ok(());
    };
    let mut answer = vec![0; 2 + 5 * u16::from_le_bytes([file[3], file[4]]) as usize];
    match gondzselu::answer(&file, &mut answer) {
        Ok(length) if length == answer.len() => Ok(()),
        other => Err(format!("the reader of what was written: {other:?}")),
    }
}

/// A number of cards that the crate cannot name goes by C.
fn placement(tables: &Tables) -> Option<Placement<'_>> {
    Some(Placement {
        cards: tables.cards.try_into().ok()?,
        homes: &tables.homes,
        copies: &tables.copies,
        primaries: &tables.primaries,
    })
}

/// The refusal and the length.
fn numbers(answer: Result<usize, Refusal>) -> (u8, u32) {
    match answer {
        Ok(length) => (0, length as u32),
        Err(refusal) => (refusal.number(), 0),
    }
}

fn bytes(tables: &Tables, output: &mut [u8]) -> (u8, u32) {
    let (codes, arguments) = (&tables.codes, &tables.arguments);
    match placement(tables) {
        Some(place) => numbers(gondzselu::write_bytes(place, codes, arguments, output)),
        None => c::write(tables, output),
    }
}

/// The steps as the crate has them, by bytes where these make no step; none where codes and
/// arguments are not parallel. One more than a file has is for the library to refuse.
fn steps(tables: &Tables) -> Option<Box<Steps<4_097>>> {
    let mut steps = Box::new(Steps::new());
    let arguments = tables.arguments.chunks(8);
    if tables.arguments.len() != 8 * tables.codes.len() {
        return None;
    }
    for (&code, argument) in tables.codes.iter().zip(arguments) {
        let argument = argument.try_into().ok()?;
        let pushed = match Step::from_bytes(code, argument) {
            Ok(step) => steps.push(step),
            Err(_) => steps.push_bytes(code, argument),
        };
        pushed.ok()?;
    }
    Some(steps)
}

fn typed(tables: &Tables, output: &mut [u8]) -> (u8, u32) {
    match (placement(tables), steps(tables)) {
        (Some(place), Some(steps)) => numbers(gondzselu::write(place, &steps, output)),
        _ => c::write(tables, output),
    }
}
