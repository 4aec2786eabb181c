//! A run file from the tables of a panel (RULES 3.1), with refusals 3, 4 and 5 in this order.

#[cfg(test)]
mod tests;

use super::files::Run;
use super::placement::{sizes_in_range, Place, Placement};
use super::{has, Refusal};

/// A placement and steps in tables. The number of cards is told, the other sizes are the tables'
/// lengths; the argument of each step is eight bytes of `arguments`.
#[derive(Clone, Debug, Default, PartialEq, Eq)]
pub struct Tables {
    pub cards: u32,
    pub homes: Vec<u8>,
    pub copies: Vec<u8>,
    pub primaries: Vec<u8>,
    pub codes: Vec<u8>,
    pub arguments: Vec<u8>,
}

/// The placement of tables whose sizes are in range, or 4.
pub fn placed(
    cards: u32,
    homes: &[u8],
    copies: &[u8],
    primaries: &[u8],
) -> Result<Placement, Refusal> {
    let places = copies.iter().zip(primaries);
    let place = |(&holders, &primary): (&u8, &u8)| Place { holders, primary };
    let placement = Placement {
        cards: cards as u8,
        home: homes.to_vec(),
        registers: places.map(place).collect(),
    };
    placement.judge()?;
    Ok(placement)
}

/// A file at the start of a lent output: 0 and its length. Or its refusal, or 5 for an output that
/// is too short; each with 0, and the output as it was.
pub fn lend(file: Result<Vec<u8>, Refusal>, output: &mut [u8]) -> (u8, u32) {
    let file = match file {
        Ok(file) => file,
        Err(refusal) => return (refusal, 0),
    };
    let Some(lent) = output.get_mut(..file.len()) else {
        return (5, 0);
    };
    lent.copy_from_slice(&file);
    (0, file.len() as u32)
}

impl Tables {
    /// What a reader gets from a file.
    pub fn of(run: &Run) -> Tables {
        let Placement {
            cards,
            home,
            registers,
        } = &run.placement;
        Tables {
            cards: *cards as u32,
            homes: home.clone(),
            copies: registers.iter().map(|place| place.holders).collect(),
            primaries: registers.iter().map(|place| place.primary).collect(),
            codes: run.steps.iter().map(|&(code, _)| code).collect(),
            arguments: run.steps.iter().flat_map(|&(_, bytes)| bytes).collect(),
        }
    }

    /// Sizes in range (RULES 1.3), and parallel tables of one length.
    fn sized(&self) -> bool {
        let (registers, tasks, steps) = (self.copies.len(), self.homes.len(), self.codes.len());
        sizes_in_range(self.cards as usize, registers, tasks, steps)
            && self.primaries.len() == registers
            && self.arguments.len() == 8 * steps
    }

    /// The run file; or 3 for any of the sizes, then 4 for the placement. Nothing is asked of the
    /// steps.
    pub fn file(&self) -> Result<Vec<u8>, Refusal> {
        if !self.sized() {
            return Err(3);
        }
        let placement = placed(self.cards, &self.homes, &self.copies, &self.primaries)?;
        let arguments = self.arguments.chunks_exact(8);
        let arguments = arguments.map(|bytes| bytes.try_into().expect("eight bytes"));
        let steps = self.codes.iter().copied().zip(arguments).collect();
        Ok(Run { placement, steps }.write())
    }

    /// The file at the start of a lent output: 0 and its length. Or 3, 4, then 5 for an output that
    /// is too short; each with 0, and the output as it was.
    pub fn write_into(&self, output: &mut [u8]) -> (u8, u32) {
        lend(self.file(), output)
    }

    /// Why they are refused, by the numbers of `FAULTS`; of tables with a fault of 3 none of 4.
    pub fn faults(&self) -> Vec<usize> {
        let of = |refusal| {
            let faults = (0..FAULTS.len()).filter(move |&fault| FAULTS[fault].0 == refusal);
            faults.filter(|&fault| FAULTS[fault].2(self)).collect()
        };
        let sizes: Vec<usize> = of(3);
        match sizes.is_empty() {
            true => of(4),
            false => sizes,
        }
    }

    /// Whether a number of cards that is in range has a placement with a fault of 4, whatever the
    /// other sizes.
    pub fn misplaced(&self) -> bool {
        let mut faults = FAULTS.iter().filter(|fault| fault.0 == 4);
        (1..=8).contains(&self.cards) && faults.any(|(_, _, has)| has(self))
    }

    fn absent(&self, card: u8) -> bool {
        card as u32 >= self.cards
    }

    fn places(&self) -> impl Iterator<Item = (u8, u8)> + '_ {
        self.copies
            .iter()
            .copied()
            .zip(self.primaries.iter().copied())
    }
}

/// A refusal, a reason for it (RULES 8.2), and whether tables have it.
type Fault = (Refusal, &'static str, fn(&Tables) -> bool);

/// Told apart from `file`, which a test holds to it.
pub const FAULTS: [Fault; 14] = [
    (3, "no cards", |t| t.cards == 0),
    (3, "more than 8 cards", |t| t.cards > 8),
    (3, "no registers", |t| t.copies.is_empty()),
    (3, "more than 32 registers", |t| t.copies.len() > 32),
    (3, "no tasks", |t| t.homes.is_empty()),
    (3, "more than 16 tasks", |t| t.homes.len() > 16),
    (3, "more than 4,096 steps", |t| t.codes.len() > 4_096),
    (3, "copies and primaries of unequal length", |t| {
        t.copies.len() != t.primaries.len()
    }),
    (3, "arguments that are not eight bytes a code", |t| {
        t.arguments.len() != 8 * t.codes.len()
    }),
    (4, "a register without a copy", |t| t.copies.contains(&0)),
    (4, "a copy on an absent card", |t| {
        let absent = |copies: u8| (0..8).any(|card| t.absent(card) && has(copies, card as usize));
        t.copies.iter().any(|&copies| absent(copies))
    }),
    (4, "a home on an absent card", |t| {
        t.homes.iter().any(|&home| t.absent(home))
    }),
    (4, "a primary without a copy", |t| {
        // Those that are absent come next; of a register without a copy the copies are told.
        let without = |(copies, primary): (u8, u8)| {
            copies != 0 && !t.absent(primary) && !has(copies, primary as usize)
        };
        t.places().any(without)
    }),
    (4, "an absent primary", |t| {
        t.primaries.iter().any(|&primary| t.absent(primary))
    }),
];
