//! Stores with a few wild words (`by_hand::wild`): the library has to find those well sized that
//! are so by the rules, and of those the model knows what a step does. On the others the unchecked
//! step only has to end, and to leave what lies about the store as it was.

use gondzselu::Store;

use super::calls::Calls;
use super::{copies, shown};
use crate::by_hand::wild::wild;
use crate::fetching::{Compared, Of};
use crate::generate::near;
use crate::memory::{well_sized, Words};
use crate::random::Random;

/// A store between words that nobody may write.
#[repr(C)]
struct Fenced {
    before: [u32; 1024],
    store: Store,
    after: [u32; 1024],
}

const FENCE: u32 = 0x5A5A_5A5A;

pub fn compare(
    mut words: Words,
    random: &mut Random,
    compared: &mut Compared,
) -> Result<(), String> {
    wild(&mut words, random);
    let store = super::store(&words);
    copies::compare(Of::Wild, &store, None, compared)
        .map_err(|words| format!("wild words: {words}"))?;
    let well_sized = well_sized(&words.registers, &words.channel);
    let answer = super::c::step(&mut store.clone(), 0, [0; 8]);
    if answer != (if well_sized { 10 } else { 6 }, 0) {
        return Err(format!(
            "wild words, well sized: {well_sized}; code 0: {answer:?}"
        ));
    }
    if well_sized {
        return compare_well_sized(store, random);
    }
    let mut fenced = Box::new(Fenced {
        before: [FENCE; 1024],
        store: store.clone(),
        after: [FENCE; 1024],
    });
    let mut calls = Calls::new(store, random.bits());
    for _ in 0..6 {
        let (code, argument) = (
            random.byte(1, 10),
            [random.byte(0, 15), 0, 0, 0, 0, 0, 0, 0],
        );
        calls
            .step_ill_sized(code, argument)
            .map_err(|words| format!("wild words: {words}"))?;
        let _ = fenced.store.advance_bytes(code, argument);
        let mut fence = fenced.before.iter().chain(&fenced.after);
        if fence.any(|&word| word != FENCE) {
            return Err(format!("wild words: code {code} writes outside the store"));
        }
    }
    Ok(())
}

fn compare_well_sized(store: Store, random: &mut Random) -> Result<(), String> {
    let mut state = shown(&store);
    let mut calls = Calls::new(store, random.bits());
    for _ in 0..6 {
        let (code, argument) = near(random, &state.placement);
        let said = |words| format!("wild words, code {code}, argument {argument:?}: {words}");
        calls
            .step(code, argument, state.step(code, argument))
            .and_then(|()| calls.same())
            .map_err(said)?;
        if shown(calls.store()) != state {
            return Err(said("the memories show another state".into()));
        }
    }
    Ok(())
}
