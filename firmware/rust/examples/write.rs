//! Writes the run file of K9 (RULES 3.5, 13.2) from typed steps: to the file that is named, or
//! else to standard output.
//!
//!   cargo run --offline --example write ../../target/k9.run

use std::error::Error;
use std::io::{self, Write};
use std::path::Path;
use std::process::ExitCode;

use gondzselu::{check_library, write, Function, Placement, Refusal, Step, Steps, LONGEST_FILE};

const PLACE: Placement<'_> = Placement {
    cards: 3,
    homes: &[0, 1, 2],
    copies: &[0b111, 0b010], // register 0 is on all three cards, register 1 on card 1 alone
    primaries: &[0, 1],
};

#[rustfmt::skip] // a table, one step after another
const STEPS: [Step; 16] = [
    Step::RequestUpdate { task: 2, register: 0, function: Function::Set, operand: 7 },
    Step::SendUpdate { task: 2 },
    Step::Dispatch { card: 2 },
    Step::TakeBroadcast { card: 0 },
    Step::Deliver { card: 0 },
    Step::RequestRead { task: 0, register: 0 },
    Step::Perform { task: 0 },
    Step::Report { task: 0 },
    Step::RequestUpdate { task: 0, register: 1, function: Function::Set, operand: 9 },
    Step::SendUpdate { task: 0 },
    Step::Dispatch { card: 0 },
    Step::TakeSingle { task: 0 },
    Step::Deliver { card: 1 }, // refused when the file is answered: a file may have such steps
    Step::TakeBroadcast { card: 1 },
    Step::Deliver { card: 1 },
    Step::Deliver { card: 1 },
];

/// The file at the output's start.
fn k9(output: &mut [u8; LONGEST_FILE]) -> Result<&[u8], Refusal> {
    let mut steps = Steps::<{ STEPS.len() }>::new();
    for step in STEPS {
        steps.push(step)?;
    }
    let length = write(PLACE, &steps, output)?;
    Ok(&output[..length])
}

fn run() -> Result<(), Box<dyn Error>> {
    check_library()?;
    let mut output = [0; LONGEST_FILE];
    let file = k9(&mut output)?;
    let mut names = std::env::args_os().skip(1);
    match (names.next(), names.next()) {
        (None, _) => {
            let mut out = io::stdout().lock();
            let written = out.write_all(file).and_then(|()| out.flush());
            Ok(written.map_err(|error| format!("standard output: {error}"))?)
        }
        (Some(name), None) => {
            let name = Path::new(&name);
            let written = std::fs::write(name, file);
            Ok(written.map_err(|error| format!("{}: {error}", name.display()))?)
        }
        _ => Err("usage: write [RUN-FILE]".into()),
    }
}

fn main() -> ExitCode {
    match run() {
        Ok(()) => ExitCode::SUCCESS,
        Err(words) => {
            let _ = writeln!(io::stderr(), "{words}");
            ExitCode::FAILURE
        }
    }
}
