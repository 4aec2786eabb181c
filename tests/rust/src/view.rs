//! A run file and its answers in words, as the program `view` prints them: written from
//! crates/view/README.md, docs/PHRASES.md and the model, not from the program. `cases` has the
//! files that are kept in crates/view/cases.

pub mod cases;

use crate::model::files::{RawStep, Run};
use crate::model::placement::Placement;
use crate::model::results::{self, DONE, HELD};
use crate::model::tally::Tally;
use crate::model::{has, Refusal, State, FUNCTIONS};
use crate::sentence::PHRASES;

/// By code, from 1.
pub const NAMES: [&str; 10] = [
    "request read",
    "request update",
    "perform",
    "send read",
    "send update",
    "dispatch",
    "take broadcast",
    "take single",
    "deliver",
    "report",
];

/// By function, from 1.
pub const NAMED_FUNCTIONS: [&str; 5] = [
    "set",
    "add, stays at the top",
    "larger",
    "or",
    "add, comes round",
];

/// What a file can be refused with. A step has the phrases of docs/PHRASES.md.
pub const FILES: [(Refusal, &str); 4] = [
    (1, "too short for its sizes"),
    (2, "too long"),
    (3, "a size out of range"),
    (
        4,
        "no copy, a copy or home on an absent card, or a primary without a copy",
    ),
];

/// A refusal of a file or of a step, as it is told.
pub fn refused(refusal: Refusal) -> String {
    let mut phrases = FILES.iter().chain(&PHRASES);
    let phrase = phrases.find(|(number, _)| *number == refusal);
    let (_, phrase) = phrase.expect("a refusal with a phrase");
    format!("refused {refusal}: {phrase}")
}

/// What the program prints for an input.
pub fn view(file: &[u8]) -> String {
    let run = match Run::read(file) {
        Ok(run) => run,
        Err(refusal) => return refused(refusal) + "\n",
    };
    let mut text = placement(&run.placement, run.steps.len());
    if !run.steps.is_empty() {
        text.push('\n');
    }
    let mut state = State::start(run.placement).expect("an accepted placement");
    let mut tally = Tally::default();
    // By task: whether the last request that was taken is a read.
    let mut reads = vec![false; state.tasks.len()];
    for (number, (code, argument)) in run.steps.into_iter().enumerate() {
        let (result, value) = state.step_reached(code, argument);
        tally.count(result);
        let asked = asked((code, argument), result);
        let task = argument[0] as usize;
        let answered = match (result, code) {
            (DONE, 10) if reads[task] => format!("taken, value {value}"),
            (DONE, 10) => format!("taken, found {value}"),
            (DONE, _) => "taken".to_string(),
            (HELD, _) => "held".to_string(),
            _ => refused(result),
        };
        if results::taken(result) && matches!(code, 1 | 2) {
            reads[task] = code == 1;
        }
        text += &format!("{number:>4}  {asked:<73}{answered}\n");
    }
    let Tally { taken, refused } = tally;
    text + &format!("\ntaken {taken}, refused {refused}\n")
}

/// The sizes of a run, and an empty line.
pub fn sizes(placement: &Placement, steps: usize) -> String {
    let Placement {
        cards,
        home,
        registers,
    } = placement;
    let (r, t) = (registers.len(), home.len());
    format!("cards {cards}, registers {r}, tasks {t}, steps {steps}\n\n")
}

/// The sizes, a line for each task and a line for each register.
fn placement(placement: &Placement, steps: usize) -> String {
    let Placement {
        home, registers, ..
    } = placement;
    let mut text = sizes(placement, steps);
    for (task, home) in home.iter().enumerate() {
        text += &format!("task {task:>2}  home card {home}\n");
    }
    text.push('\n');
    for (register, place) in registers.iter().enumerate() {
        let holders = (0..8).filter(|&card| has(place.holders, card));
        let holders: String = holders.map(|card| format!(" {card}")).collect();
        let primary = place.primary;
        text += &format!("register {register:>2}  primary card {primary}  copies on{holders}\n");
    }
    text
}

/// What a step with this result asks, or its bytes, if they cannot be read as a step.
fn asked((code, argument): RawStep, result: u8) -> String {
    let [first, second, function, _, a, b, c, d] = argument;
    let known = FUNCTIONS.contains(&function);
    if matches!(result, 10 | 11) || code == 2 && !known {
        let bytes = argument.iter().map(|byte| format!(" {byte:02x}"));
        return format!("bytes {code:02x}{}", bytes.collect::<String>());
    }
    let name = NAMES[code as usize - 1];
    let of = match code {
        6 | 7 | 9 => "card",
        _ => "task",
    };
    let second = match code {
        1 | 2 => format!("  register {second:>3}"),
        4 => format!("  to card  {second:>3}"),
        _ => String::new(),
    };
    let update = match code {
        2 => {
            let function = NAMED_FUNCTIONS[function as usize - 1];
            let operand = u32::from_le_bytes([a, b, c, d]);
            format!("  {function:<22}{operand:<11}")
        }
        _ => String::new(),
    };
    format!("{name:<16}{of} {first:>3}{second:<14}{update:<35}")
}

#[cfg(test)]
mod tests {
    use super::*;
    use crate::folder;
    use crate::named;

    fn of(name: &str) -> String {
        let mut runs = named::runs().into_iter();
        view(&runs.find(|run| run.name == name).expect("a named run").file)
    }

    /// Written out by hand.
    #[test]
    fn named_runs() {
        assert_eq!(of("K3"), "refused 1: too short for its sizes\n");
        assert_eq!(of("K4-nine"), "refused 3: a size out of range\n");
        let smallest = "cards 1, registers 1, tasks 1, steps 0

task  0  home card 0

register  0  primary card 0  copies on 0

taken 0, refused 0
";
        assert_eq!(of("K1"), smallest);
        let k9 = "cards 3, registers 2, tasks 3, steps 16

task  0  home card 0
task  1  home card 1
task  2  home card 2

register  0  primary card 0  copies on 0 1 2
register  1  primary card 1  copies on 1

   0  request update  task   2  register   0  set                   7          taken
   1  send update     task   2                                                 taken
   2  dispatch        card   2                                                 taken
   3  take broadcast  card   0                                                 taken
   4  deliver         card   0                                                 taken
   5  request read    task   0  register   0                                   taken
   6  perform         task   0                                                 taken
   7  report          task   0                                                 taken, value 7
   8  request update  task   0  register   1  set                   9          taken
   9  send update     task   0                                                 taken
  10  dispatch        card   0                                                 taken
  11  take single     task   0                                                 held
  12  deliver         card   1                                                 refused 33: the card has nothing to deliver
  13  take broadcast  card   1                                                 taken
  14  deliver         card   1                                                 taken
  15  deliver         card   1                                                 taken

taken 15, refused 1
";
        assert_eq!(of("K9"), k9);
    }

    /// A counter at the top (RULES 13.3): what updates found, what reads gave.
    #[test]
    fn reports() {
        let text = of("counter");
        let reports = text.lines().filter(|line| line.contains("  report "));
        let answers: Vec<&str> = reports.map(|line| &line[79..]).collect();
        let wanted = [
            "taken, found 0",
            "taken, found 4294967294",
            "taken, value 4294967295",
            "taken, found 4294967295",
            "taken, value 2",
        ];
        assert_eq!(answers, wanted);
    }

    /// What rt gives the program, and what it must print: K9.
    #[test]
    fn the_example_of_the_crate() {
        let read = |name| std::fs::read(folder::of_tree("crates/view").join(name)).expect(name);
        let mut runs = named::runs().into_iter();
        let k9 = runs.find(|run| run.name == "K9").expect("a named run");
        assert_eq!(read("stdin"), k9.file);
        assert_eq!(read("stdout"), of("K9").into_bytes());
    }

    #[test]
    fn what_is_asked() {
        let line = |code, argument, result| format!("{:<73}|", asked((code, argument), result));
        let wide = [255, 100, 2, 0, 255, 255, 255, 255];
        assert_eq!(
            line(2, wide, 12),
            "request update  task 255  register 100  add, stays at the top 4294967295 |"
        );
        assert_eq!(
            line(2, [0, 1, 5, 0, 0, 1, 0, 0], 0),
            "request update  task   0  register   1  add, comes round      256        |"
        );
        assert_eq!(
            line(4, [7, 31, 0, 0, 0, 0, 0, 0], 14),
            "send read       task   7  to card   31                                   |"
        );
        assert_eq!(
            line(6, [128, 0, 0, 0, 0, 0, 0, 0], 14),
            "dispatch        card 128                                                 |"
        );
        assert_eq!(
            line(2, [0, 171, 6, 0, 0, 0, 0, 9], 13),
            "bytes 02 00 ab 06 00 00 00 00 09                                         |"
        );
        assert_eq!(
            line(255, [0; 8], 10),
            "bytes ff 00 00 00 00 00 00 00 00                                         |"
        );
    }
}
