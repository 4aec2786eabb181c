//! The three calls that take a step, each on a store of its own: the step, the step without the
//! check of the state, and the step that is counted.

use gondzselu::{Refusal, Step, Store, Taken, Tally};

use super::c;
use crate::model::tally;
use crate::random::Random;

/// Stores that go the same way, and the tally of the third with what it is to be.
pub struct Calls {
    stepped: Store,
    advanced: Store,
    counted: Store,
    tally: Tally,
    wanted: tally::Tally,
    forms: Random,
}

/// Result and value of what the crate answers.
fn numbers(answer: Result<Taken, Refusal>) -> (u8, u32) {
    match answer {
        Ok(taken) => (taken.result(), taken.value),
        Err(refusal) => (refusal.number(), 0),
    }
}

impl Calls {
    /// All from one store. The tally is empty, full or nearly full.
    pub fn new(store: Store, seed: u64) -> Calls {
        let mut forms = Random::new(seed, 0);
        let [taken, refused] = [(); 2].map(|()| forms.pick(&[0, u32::MAX - 2, u32::MAX]));
        Calls {
            advanced: store.clone(),
            counted: store.clone(),
            stepped: store,
            tally: Tally { taken, refused },
            wanted: tally::Tally { taken, refused },
            forms,
        }
    }

    /// The store that plain steps move.
    pub fn store(&self) -> &Store {
        &self.stepped
    }

    fn tally(&self) -> Result<(), String> {
        let (found, wanted) = (self.tally, self.wanted);
        match (found.taken, found.refused) == (wanted.taken, wanted.refused) {
            true => Ok(()),
            false => Err(format!("{found:?}, not {wanted:?}")),
        }
    }

    /// Takes a step by each call, as C has it or in one of the crate's forms. Compares results,
    /// values and the tally with the model's.
    pub fn step(&mut self, code: u8, argument: [u8; 8], wanted: (u8, u32)) -> Result<(), String> {
        let answer = self.advance(code, argument);
        if answer != wanted {
            return Err(format!("advance: {answer:?}, not {wanted:?}"));
        }
        self.step_checked(code, argument, wanted)
    }

    /// The same on an ill-sized state: 6, and no word changes. Of the unchecked step, only that it
    /// ends.
    pub fn step_ill_sized(&mut self, code: u8, argument: [u8; 8]) -> Result<(), String> {
        let before = self.stepped.clone();
        self.advance(code, argument);
        self.step_checked(code, argument, (6, 0))?;
        match before == self.stepped && before == self.counted {
            true => Ok(()),
            false => Err("refused with 6, and a word changes".into()),
        }
    }

    fn advance(&mut self, code: u8, argument: [u8; 8]) -> (u8, u32) {
        let store = &mut self.advanced;
        match (self.forms.between(0, 2), Step::from_bytes(code, argument)) {
            (0, _) => c::advance(store, code, argument),
            (1, Ok(step)) => numbers(store.advance(step)),
            _ => numbers(store.advance_bytes(code, argument)),
        }
    }

    fn step_checked(
        &mut self,
        code: u8,
        argument: [u8; 8],
        wanted: (u8, u32),
    ) -> Result<(), String> {
        let typed = Step::from_bytes(code, argument);
        let store = &mut self.stepped;
        let answer = match (self.forms.between(0, 2), typed) {
            (0, _) => c::step(store, code, argument),
            (1, Ok(step)) => numbers(store.step(step)),
            _ => numbers(store.step_bytes(code, argument)),
        };
        if answer != wanted {
            return Err(format!("{answer:?}, not {wanted:?}"));
        }
        let (store, tally) = (&mut self.counted, &mut self.tally);
        let answer = match (self.forms.between(0, 2), typed) {
            (0, _) => c::step_counted(store, code, argument, tally),
            (1, Ok(step)) => numbers(store.step_counted(step, tally)),
            _ => numbers(store.step_bytes_counted(code, argument, tally)),
        };
        if answer != wanted {
            return Err(format!("counted: {answer:?}, not {wanted:?}"));
        }
        self.wanted.count(wanted.0);
        self.tally()
    }

    /// Whether the three stores are the same, word by word.
    pub fn same(&self) -> Result<(), String> {
        if self.advanced != self.stepped {
            return Err("advance leaves other words than the step".into());
        }
        if self.counted != self.stepped {
            return Err("the counted step leaves other words than the step".into());
        }
        Ok(())
    }
}
