//! A run file from a run in words, as the program `compose` writes it: written from
//! crates/compose/README.md and the model's writer, not from the program. `line` understands one
//! line, `cases` has texts with what must come of them, some of which are kept in crates/compose/cases, `spoil` makes texts from those
//! of `view`.

pub mod cases;
mod line;
pub mod spoil;
#[cfg(test)]
mod tests;

use crate::model::has;
use crate::model::write::Tables;
use crate::view::refused;
use line::{Line, LINE};

/// The longest text.
pub const TEXT: usize = 4_194_304;

/// The most tasks, registers and steps (RULES 1.3).
const TASKS: usize = 16;
const REGISTERS: usize = 32;
const STEPS: usize = 4_096;

/// The parts of a text in their order, and what is before them all.
#[derive(Clone, Copy, Debug, Default, PartialEq, Eq, PartialOrd, Ord)]
enum Part {
    #[default]
    Nothing,
    Sizes,
    Tasks,
    Registers,
    Steps,
    Counts,
}

/// What is wrong with a line, behind its number.
const NOT_UNDERSTOOD: &str = " is not understood";
const OUT_OF_PLACE: &str = " is out of place";
const ONE_TOO_MANY: &str = " is one too many";
const COUNTS_OTHERWISE: &str = " counts otherwise than the text";

/// What a message says, whatever its line.
pub fn sort(message: &str) -> String {
    match message.strip_prefix("line ") {
        Some(rest) => of_line(rest.trim_start_matches(|c: char| c.is_ascii_digit())),
        None => message.to_string(),
    }
}

fn of_line(wrong: &str) -> String {
    format!("line L{wrong}")
}

/// All sorts of messages but that of a text that is too long.
pub fn sorts() -> [String; 7] {
    let lines = [NOT_UNDERSTOOD, OUT_OF_PLACE, ONE_TOO_MANY, COUNTS_OTHERWISE];
    let [a, b, c, d] = lines.map(of_line);
    let [e, f] = [3, 4].map(|refusal| of_line(&line_refused(refusal)));
    [a, b, c, d, e, f, refused(3)]
}

/// What is wrong with a line that no file may have.
fn line_refused(refusal: u8) -> String {
    format!(": {}", refused(refusal))
}

/// How many registers, tasks and steps the line of sizes tells, and the number of that line.
#[derive(Clone, Copy, Debug)]
struct Told {
    sizes: [u32; 3],
    line: usize,
}

/// What was read so far.
#[derive(Clone, Debug, Default)]
struct Read {
    part: Part,
    told: Option<Told>,
    tables: Tables,
}

/// The run file of a text, or the message without the program's name.
pub fn compose(text: &[u8]) -> Result<Vec<u8>, String> {
    let mut read = Read::default();
    let mut lines: Vec<&[u8]> = text[..text.len().min(TEXT)]
        .split(|&byte| byte == b'\n')
        .collect();
    // Behind the last newline is no line, or one without a newline; nothing there is passed over. Of
    // a text that goes on past the limit, that line is cut, and only too long if it is so already.
    if text.len() > TEXT {
        lines.pop_if(|line| line.len() <= LINE);
    }
    for (number, line) in (1..).zip(lines) {
        read.line(number, line)
            .map_err(|wrong| format!("line {number}{wrong}"))?;
    }
    if text.len() > TEXT {
        return Err(format!("the text is longer than {TEXT} bytes"));
    }
    if let Some(Told { sizes, line }) = read.told {
        let Tables {
            homes,
            copies,
            codes,
            ..
        } = &read.tables;
        if sizes.map(|size| size as usize) != [copies.len(), homes.len(), codes.len()] {
            return Err(format!("line {line}{COUNTS_OTHERWISE}"));
        }
    }
    read.tables.file().map_err(refused)
}

impl Read {
    fn line(&mut self, number: usize, line: &[u8]) -> Result<(), String> {
        let tables = &mut self.tables;
        match Line::read(line).ok_or(NOT_UNDERSTOOD)? {
            Line::Empty => return Ok(()),
            Line::Sizes { cards, told } => {
                self.part = self.part.followed_by(Part::Sizes)?;
                accept((1..=8).contains(&cards), 3)?;
                tables.cards = cards;
                self.told = told.map(|sizes| Told {
                    sizes,
                    line: number,
                });
            }
            Line::Task { task, home } => {
                self.part = self.part.followed_by(Part::Tasks)?;
                next(Some(task as u32), tables.homes.len(), TASKS)?;
                accept((home as u32) < tables.cards, 4)?;
                tables.homes.push(home);
            }
            Line::Register {
                register,
                primary,
                holders,
            } => {
                self.part = self.part.followed_by(Part::Registers)?;
                next(Some(register as u32), tables.copies.len(), REGISTERS)?;
                let present = (holders as u32) < 1 << tables.cards;
                accept(present && primary < 8 && has(holders, primary as usize), 4)?;
                tables.copies.push(holders);
                tables.primaries.push(primary);
            }
            Line::Step { number, step } => {
                self.part = self.part.followed_by(Part::Steps)?;
                next(number, tables.codes.len(), STEPS)?;
                tables.codes.push(step.0);
                tables.arguments.extend(step.1);
            }
            Line::Counts => self.part = self.part.followed_by(Part::Counts)?,
        }
        Ok(())
    }
}

impl Part {
    /// The part of the next line, if that is in place there.
    fn followed_by(self, next: Part) -> Result<Part, &'static str> {
        let fits = match (self, next) {
            (Part::Nothing, _) | (_, Part::Sizes) => (self, next) == (Part::Nothing, Part::Sizes),
            (Part::Counts, _) => false,
            _ => self <= next,
        };
        match fits {
            true => Ok(next),
            false => Err(OUT_OF_PLACE),
        }
    }
}

/// A line that the writer would refuse is named.
fn accept(so: bool, refusal: u8) -> Result<(), String> {
    match so {
        true => Ok(()),
        false => Err(line_refused(refusal)),
    }
}

/// A number, if one stands there, is that of the next of these lines, and there is room for it.
fn next(number: Option<u32>, count: usize, most: usize) -> Result<(), &'static str> {
    if number.is_some_and(|number| number as usize != count) {
        return Err(OUT_OF_PLACE);
    }
    match count < most {
        true => Ok(()),
        false => Err(ONE_TOO_MANY),
    }
}
