//! Steps from states made by hand (`by_hand`).

use std::collections::BTreeMap;

use super::calls::Calls;
use super::{compare_panel, copies, shown, store, wild};
use crate::by_hand;
use crate::fetching::{self, Of};
use crate::generate::near;
use crate::memory::written;
use crate::model::results::taken;
use crate::random::Random;

/// What was compared.
#[derive(Clone, Debug, Default)]
pub struct Compared {
    pub states: usize,
    pub ill_sized: usize,
    /// Kinds of fault (RULES 8.6), and in how many states.
    pub faults: BTreeMap<&'static str, usize>,
    /// Results of steps from well-sized states, by number.
    pub results: BTreeMap<u8, usize>,
    /// Copies of all these and of single words.
    pub copies: fetching::Compared,
}

/// Compares some steps from a state made by hand, by every call that takes a step.
pub fn compare(random: &mut Random, compared: &mut Compared) -> Result<(), String> {
    let mut state = by_hand::state(random);
    let words = written(&state, random);
    let store = store(&words);
    let ill_sized = !state.well_sized();
    for fault in state.faults() {
        *compared.faults.entry(fault).or_default() += 1;
    }
    if !ill_sized {
        if shown(&store) != state {
            return Err("the state isn't written as it is read".into());
        }
        compare_panel(&state, &store)?;
    }
    copies::compare(Of::States, &store, Some(&state), &mut compared.copies)?;
    wild::compare(words, random, &mut compared.copies)?;
    let mut calls = Calls::new(store, random.bits());
    for number in 0..random.between(1, 12) {
        let (code, argument) = near(random, &state.placement);
        let said = |words| format!("step {number}, code {code}, argument {argument:?}: {words}");
        let before = calls.store().clone();
        let expected = state.step(code, argument);
        if ill_sized && expected.0 != 6 || ill_sized == state.well_sized() {
            return Err(said("well-sizedness changes".into()));
        }
        if ill_sized {
            calls.step_ill_sized(code, argument).map_err(said)?;
            continue;
        }
        calls.step(code, argument, expected).map_err(said)?;
        calls.same().map_err(said)?;
        if !taken(expected.0) && *calls.store() != before {
            return Err(said("refused, and a word changes".into()));
        }
        if shown(calls.store()) != state {
            return Err(said("the memories show another state".into()));
        }
        *compared.results.entry(expected.0).or_default() += 1;
    }
    compared.states += 1;
    compared.ill_sized += ill_sized as usize;
    Ok(())
}
