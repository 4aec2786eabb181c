//! Loads that the library draws (`loading`), by its C signature and by the crate's call; and its own
//! answers to them.

use gondzselu::{Placement, Refusal};

use super::c;
use crate::loading::{self, Compared, Compares, Drawer};
use crate::model::load::Load;
use crate::random::Random;

/// Compares on seeds at their ends, by both calls; how many loads these are.
pub fn ends() -> Result<usize, String> {
    Ok(loading::ends(by(&c::load))? + loading::ends(by(&called))?)
}

/// Compares on the load of one item of a seed, by one of the calls.
pub fn compare(random: &mut Random, compared: &mut Compared) -> Result<(), String> {
    let drawer: Drawer = random.pick(&[&c::load as Drawer, &called]);
    loading::compare(random, compared, by(drawer))
}

fn by(drawer: Drawer) -> Compares {
    let answerer = &answer;
    Compares { drawer, answerer }
}

/// The answer file, in an output that is just long enough.
fn answer(file: &[u8]) -> Result<Vec<u8>, u8> {
    let mut answer = vec![0; 2 + 5 * u16::from_le_bytes([file[3], file[4]]) as usize];
    let length = gondzselu::answer(file, &mut answer).map_err(Refusal::number)?;
    answer.truncate(length);
    Ok(answer)
}

/// By the crate; a number of cards that it cannot name goes by C.
fn called(load: &Load, output: &mut [u8]) -> (u8, u32) {
    let Ok(cards) = load.cards.try_into() else {
        return c::load(load, output);
    };
    let placement = Placement {
        cards,
        homes: &load.homes,
        copies: &load.copies,
        primaries: &load.primaries,
    };
    match gondzselu::load(load.seed, placement, load.steps as usize, output) {
        Ok(length) => (0, length as u32),
        Err(refusal) => (refusal.number(), 0),
    }
}
