//! A panel's readers of copies (`fetching`), by their C signatures.

use std::hint::black_box;

use gondzselu::Store;

use super::c;
use crate::fetching::{self, Compared, Of, Readers};
use crate::model::State;

/// Compares on one store, which no call may change.
pub fn compare(
    of: Of,
    store: &Store,
    state: Option<&State>,
    compared: &mut Compared,
) -> Result<(), String> {
    let before = store.clone();
    let readers = Readers {
        copy: &|card, register| c::copy(store, card, register),
        copies: &|register| c::copies(store, register),
    };
    fetching::compare(of, before.words(), state, &readers, compared)?;
    // Behind a shared reference the compiler expects no change.
    match *black_box(store) == before {
        true => Ok(()),
        false => Err("a word changes where copies are read".into()),
    }
}
