//! What a panel reads of a register on all cards at once (RULES 11.6, 11.8).

use super::{has, Register, State};

impl State {
    /// The value of each card's copy, by card: 0 for a card that is absent or holds none, and for
    /// every card if the register is absent. Of any state whose tables are as long as its sizes say,
    /// also where a holder is absent.
    pub fn copies_of(&self, register: Register) -> [u32; 8] {
        let (cards, registers) = (self.placement.cards, self.placement.registers.len());
        [0, 1, 2, 3, 4, 5, 6, 7].map(|card| {
            let present = card < cards as usize && register < registers;
            match present && has(self.holders(register), card) {
                true => self.copy(card, register),
                false => 0,
            }
        })
    }
}

#[cfg(test)]
mod tests {
    use crate::model::files::Run;
    use crate::model::placement::Placement;
    use crate::model::State;
    use crate::named;

    /// K9 place by place (RULES 13.2), and as it ends (12.11).
    #[test]
    fn k9_place_by_place() {
        let k9 = named::runs().into_iter().find(|run| run.name == "K9");
        let run = Run::read(&k9.expect("K9").file).expect("an accepted file");
        let mut state = State::start(run.placement).expect("an accepted placement");
        for (place, (code, argument)) in run.steps.into_iter().enumerate() {
            state.step(code, argument);
            let mut wanted = [[0; 8]; 2];
            wanted[0][0] = if place >= 4 { 7 } else { 0 };
            wanted[0][1] = if place >= 14 { 7 } else { 0 };
            wanted[1][1] = if place >= 15 { 9 } else { 0 };
            assert_eq!([0, 1].map(|register| state.copies_of(register)), wanted);
        }
        assert_eq!(state.copies_of(0), [7, 7, 0, 0, 0, 0, 0, 0]);
        assert_eq!(state.copies_of(1), [0, 9, 0, 0, 0, 0, 0, 0]);
    }

    /// Three cards and two registers, with a number on every card, made by hand.
    #[test]
    fn who_holds_none_has_0() {
        let placement = Placement::new(3, &[0], &[(0b101, 0), (0b010, 1)]);
        let mut state = State::start(placement).expect("an accepted placement");
        state.copies = vec![10, 11, 12, 20, 21, 22];
        assert_eq!(state.copies_of(0), [10, 0, 12, 0, 0, 0, 0, 0]);
        assert_eq!(state.copies_of(1), [0, 21, 0, 0, 0, 0, 0, 0]);
        for absent in [2, 3, 31, 32, 33, usize::MAX] {
            assert_eq!(state.copies_of(absent), [0; 8]);
        }
        // Holders that are absent have 0 too.
        state.placement.registers[1].holders = 0b1111_1100;
        assert_eq!(state.copies_of(1), [0, 0, 22, 0, 0, 0, 0, 0]);
        state.placement.registers[1].holders = 0;
        assert_eq!(state.copies_of(1), [0; 8]);
    }
}
