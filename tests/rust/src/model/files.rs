//! Run file and answer file (RULES 3 and 4), with refusals 1 to 5.

use std::cmp::Ordering;

use super::placement::{sizes_in_range, Place, Placement};
use super::tally::Tally;
use super::{Refusal, State};

/// A step as a file writes it: its code and its argument.
pub type RawStep = (u8, [u8; 8]);

#[derive(Clone, Debug, PartialEq, Eq)]
pub struct Run {
    pub placement: Placement,
    pub steps: Vec<RawStep>,
}

impl Run {
    /// Reads a run file, its parts as in RULES 3.1. It is refused in the order of 8.3.
    pub fn read(file: &[u8]) -> Result<Run, Refusal> {
        let &[cards, registers, tasks, low, high, ref rest @ ..] = file else {
            return Err(1);
        };
        let registers = registers as usize;
        let tasks = tasks as usize;
        let steps = u16::from_le_bytes([low, high]) as usize;
        if !sizes_in_range(cards as usize, registers, tasks, steps) {
            return Err(3);
        }
        match file.len().cmp(&(5 + tasks + 2 * registers + 9 * steps)) {
            Ordering::Less => return Err(1),
            Ordering::Greater => return Err(2),
            Ordering::Equal => {}
        }
        let (home, rest) = rest.split_at(tasks);
        let (holders, rest) = rest.split_at(registers);
        let (primaries, rest) = rest.split_at(registers);
        let (codes, arguments) = rest.split_at(steps);
        let places = holders.iter().zip(primaries);
        let place = |(&holders, &primary): (&u8, &u8)| Place { holders, primary };
        let placement = Placement {
            cards,
            home: home.to_vec(),
            registers: places.map(place).collect(),
        };
        placement.judge()?;
        let arguments = arguments.chunks_exact(8);
        let argument = |bytes: &[u8]| bytes.try_into().expect("eight bytes");
        let steps = codes.iter().copied().zip(arguments.map(argument)).collect();
        Ok(Run { placement, steps })
    }

    /// Writes the run file. Sizes that don't fit their bytes are cut off.
    pub fn write(&self) -> Vec<u8> {
        let Placement {
            cards,
            home,
            registers,
        } = &self.placement;
        let mut file = vec![*cards, registers.len() as u8, home.len() as u8];
        file.extend((self.steps.len() as u16).to_le_bytes());
        file.extend(home);
        file.extend(registers.iter().map(|place| place.holders));
        file.extend(registers.iter().map(|place| place.primary));
        file.extend(self.steps.iter().map(|&(code, _)| code));
        file.extend(self.steps.iter().flat_map(|&(_, argument)| argument));
        file
    }
}

/// The answer file of results and values (RULES 4.1).
pub fn write_answer(answers: &[(u8, u32)]) -> Vec<u8> {
    let mut answer = (answers.len() as u16).to_le_bytes().to_vec();
    answer.extend(answers.iter().map(|&(result, _)| result));
    answer.extend(answers.iter().flat_map(|&(_, value)| value.to_le_bytes()));
    answer
}

/// The answer file of a run file, or the refusal of the file.
pub fn answer_file(file: &[u8]) -> Result<Vec<u8>, Refusal> {
    let run = Run::read(file)?;
    Ok(answer_from(State::start(run.placement)?, &run.steps))
}

/// The answer file of steps from a start.
pub fn answer_from(mut state: State, steps: &[RawStep]) -> Vec<u8> {
    let steps = steps.iter();
    let answers: Vec<_> = steps
        .map(|&(code, argument)| state.step_reached(code, argument))
        .collect();
    write_answer(&answers)
}

/// What the program writes (RULES 4.6).
pub fn program_output(file: &[u8]) -> Vec<u8> {
    answer_file(file).unwrap_or_else(|refusal| vec![refusal])
}

/// The answer in a lent output, and the tally brought up to date (RULES 4.4, 4.5, 9.4). Gives 0
/// or the refusal, 1 to 5.
pub fn answer_into(file: &[u8], output: &mut [u8], tally: &mut Tally) -> u8 {
    let answer = match answer_file(file) {
        Ok(answer) => answer,
        Err(refusal) => return refusal,
    };
    let Some(lent) = output.get_mut(..answer.len()) else {
        return 5;
    };
    lent.copy_from_slice(&answer);
    let steps = (answer.len() - 2) / 5;
    for &result in &answer[2..2 + steps] {
        tally.count(result);
    }
    0
}

#[cfg(test)]
mod tests {
    use super::*;

    const K2: &[u8] = &[1, 1, 1, 1, 0, 0, 1, 0, 99, 0, 0, 0, 0, 0, 0, 0, 0];

    #[test]
    fn order_of_refusals() {
        let refusal = |file: &[u8]| answer_file(file).err().unwrap_or(0);
        assert_eq!(refusal(&[]), 1);
        assert_eq!(refusal(&[9, 0, 0, 0]), 1, "under 5 bytes, before 3");
        assert_eq!(refusal(&[9, 1, 1, 0, 0]), 3, "3 before too short");
        assert_eq!(refusal(&[9, 1, 1, 0, 0, 0, 1, 0, 0]), 3, "3 before 2");
        assert_eq!(refusal(&[1, 1, 1, 1, 16, 0, 1, 0]), 3, "4,097 steps");
        assert_eq!(refusal(&[1, 1, 1, 0, 16, 0, 1, 0]), 1, "4,096 steps");
        assert_eq!(refusal(&[1, 1, 1, 0, 0, 5, 1]), 1, "1 before 4");
        assert_eq!(refusal(&[1, 1, 1, 0, 0, 5, 1, 0, 0]), 2, "2 before 4");
        assert_eq!(refusal(&[1, 1, 1, 0, 0, 5, 1, 0]), 4);
    }

    #[test]
    fn lent_output() {
        let mut tally = Tally::default();
        let mut output = [0xA5; 10];
        assert_eq!(answer_into(K2, &mut output[..6], &mut tally), 5);
        assert_eq!(answer_into(&K2[..16], &mut output, &mut tally), 1);
        assert_eq!(output, [0xA5; 10]);
        assert_eq!(tally, Tally::default());
        assert_eq!(answer_into(K2, &mut output, &mut tally), 0);
        assert_eq!(output, [1, 0, 10, 0, 0, 0, 0, 0xA5, 0xA5, 0xA5]);
        assert_eq!((tally.taken, tally.refused), (0, 1));
    }

    #[test]
    fn write_is_the_other_way_of_read() {
        assert_eq!(Run::read(K2).unwrap().write(), K2);
    }
}
