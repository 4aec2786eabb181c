//! The check of the state: code 0 gives 10 on a well-sized store and 6 on any other (RULES 8.5), and
//! changes nothing.

use gondzselu_model::by_hand::wild::wild;
use gondzselu_model::by_hand::words::{filled, rows, SIZES};
use gondzselu_model::by_hand::{any, state};
use gondzselu_model::memory::{well_sized, written, Words};
use gondzselu_model::random::Random;

use super::store_of;
use crate::Store;

/// Whether the check passes.
fn passes(store: &Store) -> bool {
    let mut after = store.clone();
    let (result, value) = after.step(0, [0; 8]);
    assert!(value == 0 && after == *store);
    assert!(result == 10 || result == 6);
    result == 10
}

fn by_the_rules(words: &Words) -> bool {
    well_sized(&words.registers, &words.channel)
}

/// Each number and each field of a packed word at its limit and past it, unknown kinds and functions
/// and numbers above 65,535 too; in what is not in use, anything.
#[test]
fn limits() {
    let mut random = Random::new(0, 0);
    let [mut fine_ones, mut wrong_ones] = [0, 0];
    for sizes in SIZES {
        let state = filled(sizes);
        for _ in 0..8 {
            let words = written(&state, &mut random);
            for row in rows(&words) {
                for &(value, fine) in &row.values {
                    let changed = row.with(&words, value);
                    let name = &row.name;
                    let found = passes(&store_of(&changed));
                    assert_eq!(found, fine, "{sizes:?}, {name}: word {} is {value}", row.at);
                    fine_ones += fine as usize;
                    wrong_ones += !fine as usize;
                }
            }
        }
    }
    assert!(
        fine_ones > 5_000 && wrong_ones > 3_000,
        "{fine_ones}, {wrong_ones}"
    );
}

/// Any state, one with something past its limit, and wild words.
#[test]
fn as_the_rules() {
    let mut wrong = [0, 0];
    for item in 0..6_000 {
        let mut random = Random::new(4, item);
        let made = state(&mut random);
        let mut words = written(&made, &mut random);
        for (kind, wrong) in wrong.iter_mut().enumerate() {
            if kind == 1 {
                wild(&mut words, &mut random);
            }
            let fine = by_the_rules(&words);
            assert_eq!(passes(&store_of(&words)), fine, "item {item}");
            *wrong += !fine as usize;
        }
    }
    let [stretched, wild] = wrong;
    assert!((1_000..5_000).contains(&stretched), "{stretched}");
    assert!((1_000..5_900).contains(&wild), "{wild}");
}

/// One bit of a packed word or a number, any one, the other way.
#[test]
fn single_bits() {
    let mut wrong = 0;
    for item in 0..20_000 {
        let mut random = Random::new(6, item);
        let mut words = written(&any(&mut random), &mut random);
        let all: &mut [u32] = match random.percent(50) {
            true => &mut words.registers,
            false => &mut words.channel,
        };
        all[random.between(0, all.len() - 1)] ^= 1 << random.between(0, 31);
        let fine = by_the_rules(&words);
        assert_eq!(passes(&store_of(&words)), fine, "item {item}");
        wrong += !fine as usize;
    }
    assert!((500..19_500).contains(&wrong), "{wrong}");
}
