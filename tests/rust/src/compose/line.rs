//! One line of a run in words.

use crate::model::files::RawStep;
use crate::model::only;
use crate::steps::*;

/// The most bytes of a line, its newline not counted.
pub const LINE: usize = 255;

const BLANKS: &[u8] = b" \t,\r";

#[derive(Clone, Copy, Debug, PartialEq, Eq)]
pub enum Line {
    /// Without a word.
    Empty,
    Sizes {
        cards: u32,
        /// Registers, tasks and steps.
        told: Option<[u32; 3]>,
    },
    Task {
        task: u8,
        home: u8,
    },
    Register {
        register: u8,
        primary: u8,
        holders: u8,
    },
    Step {
        number: Option<u32>,
        step: RawStep,
    },
    Counts,
}

type Word<'a> = &'a [u8];

/// By function, from 1.
const FUNCTIONS: [&[Word]; 5] = [
    &[b"set"],
    &[b"add", b"stays", b"at", b"the", b"top"],
    &[b"larger"],
    &[b"or"],
    &[b"add", b"comes", b"round"],
];

impl Line {
    /// What a line says, if it is understood.
    pub fn read(line: &[u8]) -> Option<Line> {
        if line.len() > LINE {
            return None;
        }
        let words = line.split(|byte| BLANKS.contains(byte));
        let words: Vec<Word> = words.filter(|word| !word.is_empty()).collect();
        Some(match words[..] {
            [] => Line::Empty,
            [b"cards", cards] => Line::Sizes {
                cards: number(cards)?,
                told: None,
            },
            [b"cards", cards, b"registers", registers, b"tasks", tasks, b"steps", steps] => {
                Line::Sizes {
                    cards: number(cards)?,
                    told: Some([number(registers)?, number(tasks)?, number(steps)?]),
                }
            }
            [b"task", task, b"home", b"card", home] => Line::Task {
                task: byte(task)?,
                home: byte(home)?,
            },
            [b"register", register, b"primary", b"card", primary, b"copies", b"on", ref on @ ..] => {
                let mut holders = 0;
                for word in on {
                    let card = number(word).filter(|&card| card < 8)?;
                    holders |= only(card as usize);
                }
                Line::Register {
                    register: byte(register)?,
                    primary: byte(primary)?,
                    holders,
                }
            }
            // Numbers that may be any.
            [b"taken", taken, b"refused", refused] => {
                number(taken).and(number(refused))?;
                Line::Counts
            }
            [first, ref rest @ ..] => match number(first) {
                None => Line::Step {
                    number: None,
                    step: step(&words)?,
                },
                number => Line::Step {
                    number,
                    step: step(rest)?,
                },
            },
        })
    }
}

/// One or more decimal digits, at most 4,294,967,295.
fn number(word: Word) -> Option<u32> {
    if word.is_empty() {
        return None;
    }
    let mut number: u32 = 0;
    for &digit in word {
        let digit = (digit as char).to_digit(10)?;
        number = number.checked_mul(10)?.checked_add(digit)?;
    }
    Some(number)
}

/// A number up to 255.
fn byte(word: Word) -> Option<u8> {
    number(word)?.try_into().ok()
}

/// Two hexadecimal digits.
fn hex(word: Word) -> Option<u8> {
    let digit = |digit: u8| (digit as char).to_digit(16);
    match *word {
        [high, low] => Some((16 * digit(high)? + digit(low)?) as u8),
        _ => None,
    }
}

/// A step, and behind it nothing or what was answered.
fn step(words: &[Word]) -> Option<RawStep> {
    let (step, rest) = match words {
        [b"request", b"read", b"task", task, b"register", register, rest @ ..] => {
            (request_read(byte(task)?, byte(register)?), rest)
        }
        [b"request", b"update", b"task", task, b"register", register, rest @ ..] => {
            let (function, rest) = function(rest)?;
            let (operand, rest) = rest.split_first()?;
            let (task, register) = (byte(task)?, byte(register)?);
            (
                request_update(task, register, function, number(operand)?),
                rest,
            )
        }
        [b"perform", b"task", task, rest @ ..] => (perform(byte(task)?), rest),
        [b"send", b"read", b"task", task, b"to", b"card", card, rest @ ..] => {
            (send_read(byte(task)?, byte(card)?), rest)
        }
        [b"send", b"update", b"task", task, rest @ ..] => (send_update(byte(task)?), rest),
        [b"dispatch", b"card", card, rest @ ..] => (dispatch(byte(card)?), rest),
        [b"take", b"broadcast", b"card", card, rest @ ..] => (take_broadcast(byte(card)?), rest),
        [b"take", b"single", b"task", task, rest @ ..] => (take_single(byte(task)?), rest),
        [b"deliver", b"card", card, rest @ ..] => (deliver(byte(card)?), rest),
        [b"report", b"task", task, rest @ ..] => (report(byte(task)?), rest),
        [b"bytes", code, rest @ ..] if rest.len() >= 8 => {
            let mut argument = [0; 8];
            for (byte, word) in argument.iter_mut().zip(rest) {
                *byte = hex(word)?;
            }
            ((hex(code)?, argument), &rest[8..])
        }
        _ => return None,
    };
    matches!(rest, [] | [b"taken" | b"held" | b"refused", ..]).then_some(step)
}

/// The function whose words come first, and the words behind it.
fn function<'a, 'b>(words: &'a [Word<'b>]) -> Option<(u8, &'a [Word<'b>])> {
    (1..).zip(FUNCTIONS).find_map(|(function, name)| {
        let rest = words.strip_prefix(name)?;
        Some((function, rest))
    })
}
