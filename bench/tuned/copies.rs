//! The copies of one register on all cards at once (RULES 11.8), from either layout: card after card,
//! as this store has them and the proved one had them before 0.11.0, and register after register, as
//! the proved one has them now. Sizes above their limits count as the limits (RULES 11.9). A card
//! without a copy gives 0 by a mask, as branches on a set of holders would often be guessed wrong.
//! Never inlined, as the proved library's call cannot be.

use core::array::from_fn;

use crate::word::HOLDERS;
use crate::Store;

impl Store {
    /// The eight words lie 32 apart.
    #[inline(never)]
    pub fn copies(&self, register: u8) -> [u32; 8] {
        let at = usize::from(register) & 31;
        let holders = self.register[at] >> HOLDERS & present(self.cards, self.registers, register);
        from_fn(|card| self.copies[card][at] & mask(holders, card))
    }
}

/// The same table laid register after register.
pub struct Rows {
    cards: u32,
    registers: u32,
    register: [u32; 32],
    copies: [[u32; 8]; 32],
}

impl Rows {
    pub fn of(store: &Store) -> Rows {
        Rows {
            cards: store.cards,
            registers: store.registers,
            register: store.register,
            copies: from_fn(|register| from_fn(|card| store.copies[card][register])),
        }
    }

    /// The eight words lie side by side.
    #[inline(never)]
    pub fn copies(&self, register: u8) -> [u32; 8] {
        let at = usize::from(register) & 31;
        let holders = self.register[at] >> HOLDERS & present(self.cards, self.registers, register);
        from_fn(|card| self.copies[at][card] & mask(holders, card))
    }
}

/// The cards that are there; none if the register is not.
#[inline]
fn present(cards: u32, registers: u32, register: u8) -> u32 {
    if u32::from(register) < registers.min(32) {
        (1 << cards.min(8)) - 1
    } else {
        0
    }
}

/// All bits for a card of the set, none for any other.
#[inline]
fn mask(holders: u32, card: usize) -> u32 {
    (holders >> card & 1).wrapping_neg()
}
