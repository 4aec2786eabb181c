//! The library's two readings of a log (`totalling`), by their C signatures and by the crate's calls;
//! and the copies that it leaves after the steps of a run.

use gondzselu::Refusal;

use super::{c, start};
use crate::model::files::Run;
use crate::random::Random;
use crate::totalling::{self, Compared, Readings};

const C: Readings = Readings {
    total: c::total,
    total_by_card: c::total_by_card,
};

const CRATE: Readings = Readings {
    total: |cards, operands, total| put(gondzselu::total(cards, operands), total),
    total_by_card: |cards, operands, total| put(gondzselu::total_by_card(cards, operands), total),
};

/// The crate gives no total with a refusal.
fn put(answer: Result<u32, Refusal>, total: &mut u32) -> u8 {
    *total = answer.unwrap_or(0);
    answer.map_or_else(Refusal::number, |_| 0)
}

/// Compares on one item of a seed, by one of the forms.
pub fn compare(random: &mut Random, compared: &mut Compared) -> Result<(), String> {
    let readings = random.pick(&[C, C, CRATE]);
    totalling::compare(random, compared, readings, &copies)
}

/// The value of each register's copy on its primary, alone and with the others at once.
fn copies(run: &Run) -> Result<Vec<u32>, String> {
    let mut store = start(&run.placement)?;
    for &(code, argument) in &run.steps {
        c::advance(&mut store, code, argument);
    }
    let places = run.placement.registers.iter().enumerate();
    let copy = |(register, primary): (u32, u8)| {
        let copy = c::copy(&store, primary as u32, register);
        let at_once = c::copies(&store, register).map(|copies| copies[primary as usize]);
        match at_once == Some(copy) {
            true => Ok(copy),
            false => Err(format!("register {register}: {copy}, at once {at_once:?}")),
        }
    };
    let places = places.map(|(register, place)| (register as u32, place.primary));
    places.map(copy).collect()
}
