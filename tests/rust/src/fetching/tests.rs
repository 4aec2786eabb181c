//! The stores that are compared on reach what they must; and `wrong`, that each reader with one thing
//! wrong is noticed.

mod wrong;

use super::reached::{ALL, BY_WORDS};
use super::*;
use crate::by_hand;
use crate::by_hand::wild::wild;
use crate::by_hand::words::{filled, rows, SIZES};
use crate::generate;
use crate::memory::{register, written, Words};
use crate::model::files::Run;
use crate::random::Random;
use crate::statistics::{none_missing, FILES, STATES};

type Copy = fn(Memories, u32, u32) -> u32;
type Copies = fn(Memories, u32) -> Option<[u32; 8]>;

const COPY: Copy = |(words, c), card, number| read_copy(words, c, card, number);
const COPIES: Copies = |(words, c), number| Some(read_copies(words, c, number));

/// Does something with every store of a sort, as the comparison with the library makes them.
fn each(
    of: Of,
    mut look: impl FnMut(&Words, Option<&State>) -> Result<(), String>,
) -> Result<(), String> {
    match of {
        Of::Runs => (0..FILES).try_for_each(|item| {
            let Ok(run) = Run::read(&generate::file(2, item).1) else {
                return Ok(());
            };
            let mut state = State::start(run.placement).expect("an accepted placement");
            for (code, argument) in run.steps {
                state.step_reached(code, argument);
            }
            let mut words = written(&state, &mut Random::new(2, item));
            // A start leaves nothing at absent registers.
            let present = state.placement.registers.len();
            words.registers[register(present)..=register(31)].fill(0);
            look(&words, Some(&state))
        }),
        Of::Words => {
            let mut random = Random::new(0, 0);
            for sizes in SIZES {
                for _ in 0..8 {
                    let words = written(&filled(sizes), &mut random);
                    for row in rows(&words) {
                        for &(value, _) in &row.values {
                            look(&row.with(&words, value), None)?;
                        }
                    }
                }
            }
            Ok(())
        }
        Of::States | Of::Wild => (0..STATES).try_for_each(|item| {
            let mut random = Random::new(3, item);
            let state = by_hand::state(&mut random);
            let mut words = written(&state, &mut random);
            if of == Of::States {
                return look(&words, Some(&state));
            }
            wild(&mut words, &mut random);
            look(&words, None)
        }),
    }
}

fn run(of: Of, copy: Copy, copies: Copies) -> Result<Compared, String> {
    let mut compared = Compared::default();
    each(of, |words, state| {
        let memories = (&words.registers, &words.channel);
        let readers = Readers {
            copy: &|card, number| copy(memories, card, number),
            copies: &|number| copies(memories, number),
        };
        compare(of, memories, state, &readers, &mut compared)
    })?;
    Ok(compared)
}

#[test]
fn stores_reach_everything() {
    for (of, things) in [
        (Of::Runs, 7),
        (Of::Words, 17),
        (Of::States, 11),
        (Of::Wild, 17),
    ] {
        let compared = run(of, COPY, COPIES).expect("the model's own");
        assert_eq!(none_missing(compared.missing(&[of])), Ok(()));
        // Each is missed when it alone is not there.
        let mut missed = Vec::new();
        for thing in 0..compared.things[of as usize].len() {
            let mut less = compared.clone();
            less.things[of as usize][thing] = 0;
            let missing = less.missing(&[of]);
            assert!(missing.len() <= 1, "{missing:?}");
            missed.extend(missing);
        }
        assert_eq!(missed, Compared::default().missing(&[of]));
        assert_eq!(missed.len(), things, "{of:?}");
    }
    let missing = Compared::default().missing(&BY_HAND);
    for name in [
        "copies at once in single words, holders past card 7",
        "copies at once in states made by hand, such a card with a word above 0",
        "copies at once in states made by hand, an absent holder with a word above 0",
        "copies at once in wild words, a copy above 0 on the last of more than 8 cards",
    ] {
        assert!(missing.iter().any(|found| found == name), "{name}");
    }
}

/// The state of the model is looked at too.
#[test]
fn another_state_is_noticed() {
    let state = filled(SIZES[0]);
    let words = written(&state, &mut Random::new(0, 0));
    let memories = (&words.registers, &words.channel);
    let readers = Readers {
        copy: &|card, number| COPY(memories, card, number),
        copies: &|number| COPIES(memories, number),
    };
    let of = |state: &State| {
        let compared = &mut Compared::default();
        compare(Of::States, memories, Some(state), &readers, compared)
    };
    assert_eq!(of(&state), Ok(()));
    let mut other = state.clone();
    other.copies[9] += 1;
    let said = of(&other).unwrap_err();
    assert!(said.starts_with("copies of register 1: "), "{said}");
    let mut other = state;
    other.placement.registers[5].holders = 0b1111_0111;
    let said = of(&other).unwrap_err();
    assert!(said.starts_with("copies of register 5: "), "{said}");
}
