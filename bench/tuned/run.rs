//! A whole run, from the bytes of a file to those of its answer (RULES 3 and 4).

use crate::word::{HOLDERS, HOME, QUIET};
use crate::Store;

/// The parts of a run file, where they lie in it.
struct Parts<'a> {
    cards: u8,
    homes: &'a [u8],
    copies: &'a [u8],
    primaries: &'a [u8],
    codes: &'a [u8],
    arguments: &'a [[u8; 8]],
}

/// Of a number of cards in range and tables of equal length (RULES 8.2).
pub fn placed(cards: u8, homes: &[u8], copies: &[u8], primaries: &[u8]) -> bool {
    let lies = |(&holders, &primary): (&u8, &u8)| {
        (holders as u32) >> cards == 0 && primary < cards && holders >> primary & 1 == 1
    };
    homes.iter().all(|&home| home < cards) && copies.iter().zip(primaries).all(lies)
}

impl<'a> Parts<'a> {
    /// Refused in the order of RULES 8.3.
    fn read(file: &'a [u8]) -> Result<Parts<'a>, u8> {
        let &[cards, registers, tasks, low, high, ref rest @ ..] = file else {
            return Err(1);
        };
        let steps = u16::from_le_bytes([low, high]) as usize;
        let in_range = (1..=8).contains(&cards)
            && (1..=32).contains(&registers)
            && (1..=16).contains(&tasks)
            && steps <= 4_096;
        if !in_range {
            return Err(3);
        }
        let [registers, tasks] = [registers, tasks].map(usize::from);
        let wanted = tasks + 2 * registers + 9 * steps;
        if rest.len() != wanted {
            return Err(if rest.len() < wanted { 1 } else { 2 });
        }
        let (homes, rest) = rest.split_at(tasks);
        let (copies, rest) = rest.split_at(registers);
        let (primaries, rest) = rest.split_at(registers);
        let (codes, arguments) = rest.split_at(steps);
        if !placed(cards, homes, copies, primaries) {
            return Err(4);
        }
        Ok(Parts {
            cards,
            homes,
            copies,
            primaries,
            codes,
            arguments: arguments.as_chunks().0,
        })
    }

    /// RULES 10.3.
    fn start(&self) -> Store {
        let mut store = Store::unstarted();
        store.cards = self.cards as u32;
        store.tasks = self.homes.len() as u32;
        store.registers = self.copies.len() as u32;
        for (word, &home) in store.task.iter_mut().zip(self.homes) {
            *word = (home as u32) << HOME | QUIET;
        }
        let placed = self.copies.iter().zip(self.primaries);
        for (word, (&holders, &primary)) in store.register.iter_mut().zip(placed) {
            *word = (holders as u32) << HOLDERS | primary as u32;
        }
        store
    }
}

impl Store {
    /// Begins with a file's placement (RULES 10.4): 0, or 1 to 4 and the store stays as it was.
    pub fn start_from_file(&mut self, file: &[u8]) -> u8 {
        match Parts::read(file) {
            Ok(parts) => {
                *self = parts.start();
                0
            }
            Err(refusal) => refusal,
        }
    }
}

/// Writes the answer file into the output: 0, or 1 to 5 and the output stays as it was.
pub fn answer(file: &[u8], output: &mut [u8]) -> u8 {
    let parts = match Parts::read(file) {
        Ok(parts) => parts,
        Err(refusal) => return refusal,
    };
    let steps = parts.codes.len();
    let Some(output) = output.get_mut(..2 + 5 * steps) else {
        return 5;
    };
    let (number, rest) = output.split_at_mut(2);
    number.copy_from_slice(&(steps as u16).to_le_bytes());
    let (results, values) = rest.split_at_mut(steps);
    let (values, _) = values.as_chunks_mut();
    let mut store = parts.start();
    let steps = parts.codes.iter().zip(parts.arguments);
    for ((&code, &argument), (result, value)) in steps.zip(results.iter_mut().zip(values)) {
        let (taken, given) = store.step_reached(code, argument);
        *result = taken;
        *value = given.to_le_bytes();
    }
    0
}
