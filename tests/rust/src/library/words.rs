//! Single words of the memories and single fields of packed words, each at its limit and past it
//! (`by_hand::words`).

use gondzselu::Store;

use super::calls::Calls;
use super::{copies, shown, store};
use crate::by_hand::words::{filled, rows, Row, LOOKED_AT, SIZES};
use crate::fetching::{Compared, Of};
use crate::memory::written;
use crate::random::Random;

/// Compares word by word, by every call that takes a step, and the copies that are read; says how
/// many states were tried.
pub fn compare(compared: &mut Compared) -> Result<usize, String> {
    let mut tried = 0;
    let mut random = Random::new(0, 0);
    for sizes in SIZES {
        let state = filled(sizes);
        for _ in 0..8 {
            let words = written(&state, &mut random);
            let store = store(&words);
            for Row {
                name,
                channel,
                at,
                values,
            } in rows(&words)
            {
                for (value, fine) in values {
                    let mut changed = store.clone();
                    let (registers, channels) = changed.words_mut();
                    let words: &mut [u32] = if channel { channels } else { registers };
                    words[at] = value;
                    copies::compare(Of::Words, &changed, None, compared)
                        .and_then(|()| compare_word(changed, fine, tried as u64))
                        .map_err(|words| {
                            format!("sizes {sizes:?}, {name}, word {at} is {value}: {words}")
                        })?;
                    tried += 1;
                }
            }
        }
    }
    Ok(tried)
}

fn compare_word(store: Store, fine: bool, seed: u64) -> Result<(), String> {
    let mut calls = Calls::new(store.clone(), seed);
    // An unknown code meets 10, and 6 comes first.
    if fine {
        calls.step(0, [0; 8], (10, 0))?;
        calls.same()?;
    } else {
        calls.step_ill_sized(0, [0; 8])?;
    }
    if *calls.store() != store {
        return Err("a word changes".into());
    }
    for first in LOOKED_AT {
        for code in 1..=10 {
            let argument = [first, 0, (code == 2) as u8, 0, 0, 0, 0, 0];
            if !fine {
                calls.step_ill_sized(code, argument)?;
                continue;
            }
            let mut state = shown(calls.store());
            calls.step(code, argument, state.step(code, argument))?;
            calls.same()?;
            if shown(calls.store()) != state {
                return Err(format!("code {code}: the memories show another state"));
            }
        }
    }
    Ok(())
}
