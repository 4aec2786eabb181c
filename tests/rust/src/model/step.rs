//! A step's code and argument (RULES 3.3), and refusals 10 to 15, of who writes the step.

use super::placement::Placement;
use super::{Card, Refusal, Register, TaskNumber, FUNCTIONS};

#[derive(Clone, Copy, Debug, PartialEq, Eq)]
pub enum Step {
    RequestRead {
        task: TaskNumber,
        register: Register,
    },
    RequestUpdate {
        task: TaskNumber,
        register: Register,
        function: u8,
        operand: u32,
    },
    Perform {
        task: TaskNumber,
    },
    SendRead {
        task: TaskNumber,
        chosen: Card,
    },
    SendUpdate {
        task: TaskNumber,
    },
    Dispatch {
        card: Card,
    },
    TakeBroadcast {
        card: Card,
    },
    TakeSingle {
        task: TaskNumber,
    },
    Deliver {
        card: Card,
    },
    Report {
        task: TaskNumber,
    },
}

/// The bytes of the argument that a code names (RULES 3.3); the others, and always byte 3, must be
/// zero (3.4).
fn named_bytes(code: u8) -> &'static [usize] {
    match code {
        1 | 4 => &[0, 1],
        2 => &[0, 1, 2, 4, 5, 6, 7],
        _ => &[0],
    }
}

/// The step, or the lowest of refusals 10 to 15 (RULES 8.5).
pub fn decode(code: u8, argument: [u8; 8], placement: &Placement) -> Result<Step, Refusal> {
    if !(1..=10).contains(&code) {
        return Err(10);
    }
    let named = named_bytes(code);
    if (0..8).any(|i| argument[i] != 0 && !named.contains(&i)) {
        return Err(11);
    }
    let first = argument[0] as usize;
    let second = argument[1] as usize;
    let function = argument[2];
    let operand = u32::from_le_bytes([argument[4], argument[5], argument[6], argument[7]]);

    let names_task = !matches!(code, 6 | 7 | 9);
    let cards = placement.cards as usize;
    if names_task && first >= placement.home.len() {
        return Err(12);
    }
    if matches!(code, 1 | 2) && second >= placement.registers.len() {
        return Err(13);
    }
    if !names_task && first >= cards || code == 4 && second >= cards {
        return Err(14);
    }
    if code == 2 && !FUNCTIONS.contains(&function) {
        return Err(15);
    }
    Ok(match code {
        1 => Step::RequestRead {
            task: first,
            register: second,
        },
        2 => Step::RequestUpdate {
            task: first,
            register: second,
            function,
            operand,
        },
        3 => Step::Perform { task: first },
        4 => Step::SendRead {
            task: first,
            chosen: second,
        },
        5 => Step::SendUpdate { task: first },
        6 => Step::Dispatch { card: first },
        7 => Step::TakeBroadcast { card: first },
        8 => Step::TakeSingle { task: first },
        9 => Step::Deliver { card: first },
        _ => Step::Report { task: first },
    })
}

#[cfg(test)]
mod tests {
    use super::*;

    fn refusal(code: u8, argument: [u8; 8]) -> u8 {
        // Two cards, three registers, four tasks.
        let placement = Placement::new(2, &[0, 1, 0, 1], &[(3, 0), (1, 0), (2, 1)]);
        decode(code, argument, &placement).err().unwrap_or(0)
    }

    #[test]
    fn lowest_number_first() {
        assert_eq!(refusal(0, [9; 8]), 10);
        assert_eq!(refusal(11, [0; 8]), 10);
        for code in 1..=10 {
            assert_eq!(refusal(code, [0, 0, 0, 1, 0, 0, 0, 0]), 11, "byte 3");
        }
        assert_eq!(refusal(2, [4, 3, 0, 0, 0, 0, 0, 0]), 12);
        assert_eq!(refusal(2, [3, 3, 0, 0, 0, 0, 0, 0]), 13);
        assert_eq!(refusal(2, [3, 2, 0, 0, 0, 0, 0, 0]), 15);
        assert_eq!(refusal(2, [3, 2, 6, 0, 0, 0, 0, 0]), 15);
        assert_eq!(refusal(2, [3, 2, 5, 0, 1, 2, 3, 4]), 0);
        assert_eq!(refusal(4, [4, 2, 0, 0, 0, 0, 0, 0]), 12);
        assert_eq!(refusal(4, [3, 2, 0, 0, 0, 0, 0, 0]), 14);
    }

    #[test]
    fn unnamed_bytes_of_each_code() {
        for code in 1..=10u8 {
            for byte in 1..8 {
                let mut argument = [0; 8];
                argument[2] = (code == 2) as u8;
                argument[byte] = 1;
                let named = match byte {
                    1 => matches!(code, 1 | 2 | 4),
                    3 => false,
                    _ => code == 2,
                };
                let expected = if named { 0 } else { 11 };
                assert_eq!(refusal(code, argument), expected, "code {code} byte {byte}");
            }
        }
    }

    #[test]
    fn tasks_and_cards() {
        for code in [3, 5, 8, 10] {
            assert_eq!(refusal(code, [3, 0, 0, 0, 0, 0, 0, 0]), 0);
            assert_eq!(refusal(code, [4, 0, 0, 0, 0, 0, 0, 0]), 12);
        }
        for code in [6, 7, 9] {
            assert_eq!(refusal(code, [1, 0, 0, 0, 0, 0, 0, 0]), 0);
            assert_eq!(refusal(code, [2, 0, 0, 0, 0, 0, 0, 0]), 14);
        }
    }
}
