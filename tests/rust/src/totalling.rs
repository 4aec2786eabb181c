//! Two readings of a log against the model's (`model::totals`): on generated logs, and on those of
//! generated runs, whose totals are then held to the copies (RULES 16.7). And what these must reach.

mod reached;
#[cfg(test)]
mod tests;

use crate::generate;
use crate::generate::logs::log;
use crate::logs::Logs;
use crate::model::files::Run;
use crate::model::totals::{self, Log};
use crate::random::Random;
pub use reached::Compared;

/// Reads a log: gives the refusal, and writes the total.
pub type Reading = fn(&[u8], &[u32], &mut u32) -> u8;

#[derive(Clone, Copy)]
pub struct Readings {
    pub total: Reading,
    pub total_by_card: Reading,
}

/// Takes the steps of a run, and gives the value of each register's copy on its primary.
pub type Runner<'a> = &'a dyn Fn(&Run) -> Result<Vec<u32>, String>;

/// Of a hundred items, how many have a run too.
const RUNS: usize = 50;

/// Entries before and after a list that are none of it.
const FENCE: usize = 3;

/// Compares on one item of a seed.
pub fn compare(
    random: &mut Random,
    compared: &mut Compared,
    readings: Readings,
    runner: Runner,
) -> Result<(), String> {
    let log = log(random);
    let (refusal, _) = compare_log(&log, random, readings).map_err(|words| told(&log, &words))?;
    compared.add(&log, refusal);
    match random.percent(RUNS) {
        true => compare_run(random, compared, readings, runner),
        false => Ok(()),
    }
}

fn told(log: &Log, words: &str) -> String {
    let (cards, operands) = (log.cards.len(), log.operands.len());
    format!("{cards} cards, {operands} operands: {words}")
}

/// A list with something else before and after it, so that who reads past its ends notices.
fn fenced<T: Copy>(list: &[T], fence: [T; FENCE]) -> Vec<T> {
    [&fence, list, &fence].concat()
}

/// Refusal and total of both, each written over a number of its own. Gives what they are.
fn compare_log(log: &Log, random: &mut Random, readings: Readings) -> Result<(u8, u32), String> {
    let Log { cards, operands } = log;
    let cards = fenced(cards, [(); FENCE].map(|()| random.byte(0, 255)));
    let operands = fenced(operands, [(); FENCE].map(|()| random.bits() as u32));
    let cards = &cards[FENCE..cards.len() - FENCE];
    let operands = &operands[FENCE..operands.len() - FENCE];
    let Readings {
        total,
        total_by_card,
    } = readings;
    let wanted = totals::total(cards, operands);
    let pairs = [
        ("total", total, wanted),
        (
            "total by card",
            total_by_card,
            totals::total_by_card(cards, operands),
        ),
    ];
    for (name, reading, wanted) in pairs {
        let mut total = random.bits() as u32;
        let found = (reading(cards, operands, &mut total), total);
        if found != wanted {
            return Err(format!("{name}: {found:?}, not {wanted:?}"));
        }
    }
    Ok(wanted)
}

/// The log of each register of a generated run, in which all updates add, or those of some registers,
/// or as they come. Where no other function was applied on the primary, the total is its copy.
fn compare_run(
    random: &mut Random,
    compared: &mut Compared,
    readings: Readings,
    runner: Runner,
) -> Result<(), String> {
    let (_, file) = generate::file(random.bits(), 0);
    let Ok(mut run) = Run::read(&file) else {
        return Ok(());
    };
    let some = random.bits() as u32;
    let add = random.pick(&[u32::MAX, u32::MAX, some, 0]);
    generate::adding(&mut run, |register| add >> (register % 32) & 1 == 1);
    let (logs, _) = Logs::of(&run);
    let copies = runner(&run)?;
    for (register, (log, &others)) in logs.logs.iter().zip(&logs.others).enumerate() {
        let said = |words| format!("register {register}: {words}");
        let (refusal, total) =
            compare_log(log, random, readings).map_err(|words| said(told(log, &words)))?;
        if refusal != 0 {
            return Err(said(format!("the log of a run is refused with {refusal}")));
        }
        let copy = copies[register];
        if others == 0 && total != copy {
            return Err(said(format!("the total is {total}, the copy {copy}")));
        }
        compared.add_of_run(log, others, total == copy);
    }
    compared.runs += 1;
    Ok(())
}
