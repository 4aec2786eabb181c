//! A panel's two readers of copies, that of one copy and that of all copies of a register at once,
//! against what the words of a store say (`memory::read_copies`), whatever words these are, and
//! against the model (`State::copies_of`). And what the words must reach.

mod reached;
#[cfg(test)]
mod tests;

use crate::memory::{read_copies, read_copy, CHANNEL_WORDS, REGISTERS, REGISTERS_WORDS};
use crate::model::State;
pub use reached::{Compared, Of, BY_HAND};

/// Both memories of a store.
pub type Memories<'a> = (&'a [u32; REGISTERS_WORDS], &'a [u32; CHANNEL_WORDS]);

/// The readers, of one store.
pub struct Readers<'a> {
    /// By card and register.
    pub copy: &'a dyn Fn(u32, u32) -> u32,
    /// By register; nothing where it writes beside its eight words.
    pub copies: &'a dyn Fn(u32) -> Option<[u32; 8]>,
}

/// Numbers that no card and no register has. Eight times some of them is 0 in 32 bits, and a place
/// that is worked out from those is one of the table.
const FAR: [u32; 7] = [33, 255, 256, 65_536, 1 << 29, 1 << 31, u32::MAX];

/// Compares on one store: every register there can be, and numbers past those that there are. The
/// state is the one that the words show, where the model has it.
pub fn compare(
    of: Of,
    memories: Memories,
    state: Option<&State>,
    readers: &Readers,
    compared: &mut Compared,
) -> Result<(), String> {
    let (words, c) = memories;
    let size = c[REGISTERS];
    let about = [size.wrapping_sub(1), size, size.wrapping_add(1)];
    for number in (0..=32).chain(about).chain(FAR) {
        let said = |what: &str| format!("copies of register {number}: {what}");
        let wanted = read_copies(words, c, number);
        let found =
            (readers.copies)(number).ok_or_else(|| said("a word beside them is written"))?;
        if found != wanted {
            return Err(said(&format!("{found:?}, not {wanted:?}")));
        }
        let model = state.map(|state| state.copies_of(number as usize));
        if model.is_some_and(|model| model != found) {
            return Err(said(&format!("{found:?}, and in the model {model:?}")));
        }
        for card in (0..=8).chain(FAR) {
            let (found, wanted) = (
                (readers.copy)(card, number),
                read_copy(words, c, card, number),
            );
            if found != wanted {
                return Err(said(&format!("on card {card} {found}, not {wanted}")));
            }
        }
        compared.add(of, memories, number);
    }
    Ok(())
}
