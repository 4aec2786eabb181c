//! A load: a run file whose steps are drawn from a seed (RULES 17), with refusals 3, 4 and 5 in this
//! order.

#[cfg(test)]
mod tests;
#[cfg(test)]
pub mod wrong;

use super::files::{RawStep, Run};
use super::placement::{sizes_in_range, Placement};
use super::write::{lend, placed, Tables, FAULTS};
use super::Refusal;

/// Numbers drawn from a seed: the state, at first the seed (RULES 17.2).
#[derive(Clone, Debug)]
pub struct Draws(u32);

impl Draws {
    pub fn new(seed: u32) -> Draws {
        Draws(seed)
    }

    /// The state moves; then its upper half is the draw.
    pub fn draw(&mut self) -> u32 {
        let moved = 1_664_525 * u64::from(self.0) + 1_013_904_223;
        self.0 = (moved % 4_294_967_296) as u32;
        self.0 / 65_536
    }
}

/// What a code names in its argument (RULES 3.3).
#[derive(Clone, Copy, Debug)]
enum Field {
    Task,
    Card,
    Register,
    Function,
    Operand,
}

/// What a code names, each with its first byte, in layout order.
fn fields(code: u8) -> &'static [(usize, Field)] {
    use Field::*;
    match code {
        1 => &[(0, Task), (1, Register)],
        2 => &[(0, Task), (1, Register), (2, Function), (4, Operand)],
        4 => &[(0, Task), (1, Card)],
        6 | 7 | 9 => &[(0, Card)],
        _ => &[(0, Task)],
    }
}

/// The next step: a draw for its code, and one for each field (RULES 17.3).
fn step(draws: &mut Draws, placement: &Placement) -> RawStep {
    let code = 1 + (draws.draw() % 10) as u8;
    let mut argument = [0; 8];
    for &(at, field) in fields(code) {
        let draw = draws.draw();
        let below = |size: usize| (draw as usize % size) as u8;
        match field {
            Field::Task => argument[at] = below(placement.home.len()),
            Field::Card => argument[at] = below(placement.cards as usize),
            Field::Register => argument[at] = below(placement.registers.len()),
            Field::Function => argument[at] = 1 + below(5),
            Field::Operand => argument[at..at + 4].copy_from_slice(&draw.to_le_bytes()),
        }
    }
    (code, argument)
}

/// What a load is drawn from: a seed, the tables of a placement (RULES 10.1), and how many steps.
#[derive(Clone, Debug, Default, PartialEq, Eq)]
pub struct Load {
    pub seed: u32,
    pub cards: u32,
    pub homes: Vec<u8>,
    pub copies: Vec<u8>,
    pub primaries: Vec<u8>,
    pub steps: u32,
}

/// Why N is out of range, as `FAULTS` has it of tables.
const STEPS: (Refusal, &str) = (3, "more than 4,096 steps");

impl Load {
    /// With the placement of tables, whose steps do not matter.
    pub fn new(seed: u32, tables: Tables, steps: u32) -> Load {
        Load {
            seed,
            cards: tables.cards,
            homes: tables.homes,
            copies: tables.copies,
            primaries: tables.primaries,
            steps,
        }
    }

    /// With the placement of a run.
    pub fn of(seed: u32, run: &Run, steps: u32) -> Load {
        Load::new(seed, Tables::of(run), steps)
    }

    /// The placement; or 3 for any of the sizes, N too, or for unequal tables, then 4.
    fn placement(&self) -> Result<Placement, Refusal> {
        let (registers, tasks) = (self.copies.len(), self.homes.len());
        let steps = self.steps as usize;
        let sized = sizes_in_range(self.cards as usize, registers, tasks, steps);
        if !sized || self.primaries.len() != registers {
            return Err(3);
        }
        placed(self.cards, &self.homes, &self.copies, &self.primaries)
    }

    /// The run: its steps are drawn one after the other.
    pub fn run(&self) -> Result<Run, Refusal> {
        let placement = self.placement()?;
        let mut draws = Draws::new(self.seed);
        let steps = (0..self.steps).map(|_| step(&mut draws, &placement));
        Ok(Run {
            steps: steps.collect(),
            placement: placement.clone(),
        })
    }

    /// The run file (RULES 17.4).
    pub fn file(&self) -> Result<Vec<u8>, Refusal> {
        self.run().map(|run| run.write())
    }

    /// The file at the start of a lent output: 0 and its length. Or 3, 4, then 5 for an output that
    /// is too short; each with 0, and the output as it was (RULES 17.5).
    pub fn write_into(&self, output: &mut [u8]) -> (u8, u32) {
        lend(self.file(), output)
    }

    /// The placement as tables, without steps.
    pub fn tables(&self) -> Tables {
        Tables {
            cards: self.cards,
            homes: self.homes.clone(),
            copies: self.copies.clone(),
            primaries: self.primaries.clone(),
            ..Tables::default()
        }
    }

    /// Why it is refused with 3 or 4; with a fault of 3 none of 4.
    pub fn faults(&self) -> Vec<(Refusal, &'static str)> {
        let faults = self.tables().faults().into_iter();
        let mut faults: Vec<_> = faults
            .map(|fault| (FAULTS[fault].0, FAULTS[fault].1))
            .collect();
        if self.steps > 4_096 {
            faults.retain(|&(refusal, _)| refusal == 3);
            faults.push(STEPS);
        }
        faults
    }
}

/// Every reason for 3 or 4 that a load can have.
pub fn reasons() -> impl Iterator<Item = (Refusal, &'static str)> {
    let without_steps = |&(_, reason): &(Refusal, &str)| !reason.starts_with("arguments");
    let reasons = FAULTS.iter().map(|&(refusal, reason, _)| (refusal, reason));
    reasons.filter(without_steps)
}
