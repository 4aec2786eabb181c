//! Steps from any well-sized state, compared with the model: no run reaches most of them.

use std::collections::BTreeSet;

use gondzselu_model::by_hand::any;
use gondzselu_model::by_hand::wild::wild;
use gondzselu_model::memory::{shown, written};
use gondzselu_model::model::placement::Placement;
use gondzselu_model::model::results::taken;
use gondzselu_model::model::State;
use gondzselu_model::random::Random;

use super::{store_of, words_of};
use crate::Store;

/// A step whose bytes are mostly in range.
fn step(random: &mut Random, placement: &Placement) -> (u8, [u8; 8]) {
    let below = |random: &mut Random, size: usize| random.byte(0, size as u8 - 1);
    let (cards, tasks) = (placement.cards as usize, placement.home.len());
    let code = random.byte(1, 10);
    let mut argument = [0; 8];
    argument[0] = match code {
        6 | 7 | 9 => below(random, cards),
        _ => below(random, tasks),
    };
    match code {
        1 | 2 => argument[1] = below(random, placement.registers.len()),
        4 => argument[1] = below(random, cards),
        _ => {}
    }
    if code == 2 {
        argument[2] = random.byte(1, 5);
        argument[4..].copy_from_slice(&(random.bits() as u32).to_le_bytes());
    }
    if random.percent(5) {
        argument[random.between(0, 7)] = random.byte(0, 255);
    }
    (if random.percent(2) { 11 } else { code }, argument)
}

fn shows(store: &Store, state: &State) -> bool {
    let words = words_of(store);
    shown(&words.registers, &words.channel) == *state
}

#[test]
fn as_the_model() {
    let mut results = BTreeSet::new();
    for item in 0..3_000 {
        let mut random = Random::new(3, item);
        let mut state = any(&mut random);
        let mut store = store_of(&written(&state, &mut random));
        assert!(shows(&store, &state) && state.well_sized());
        for _ in 0..random.between(1, 20) {
            let (code, argument) = step(&mut random, &state.placement);
            let expected = state.step(code, argument);
            let before = store.clone();
            let mut unchecked = store.clone();
            assert_eq!(store.step(code, argument), expected, "item {item}");
            assert_eq!(unchecked.step_reached(code, argument), expected);
            assert!(store == unchecked && shows(&store, &state), "item {item}");
            let same = store == before;
            assert!(taken(expected.0) || same, "a refused step writes");
            results.insert(expected.0);
        }
    }
    let all = [
        0, 6, 10, 11, 12, 13, 14, 15, 20, 21, 22, 23, 30, 31, 32, 33, 34, 35, 100,
    ];
    assert_eq!(results, BTreeSet::from(all));
}

/// An unchecked step ends on any words, and a step that is refused with 6 writes nothing.
#[test]
fn on_any_words() {
    for item in 0..3_000 {
        let mut random = Random::new(5, item);
        let state = any(&mut random);
        let mut words = written(&state, &mut random);
        wild(&mut words, &mut random);
        let mut store = store_of(&words);
        for _ in 0..20 {
            let (code, argument) = step(&mut random, &state.placement);
            let mut checked = store.clone();
            let answer = checked.step(code, argument);
            assert!(answer != (6, 0) || checked == store, "item {item}");
            store.step_reached(code, argument);
        }
    }
}
