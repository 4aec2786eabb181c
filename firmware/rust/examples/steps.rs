//! Plays the steps of a run file one by one and says in words what became of each, and what it
//! was.
//!
//!   cargo run --offline --example steps ../../examples/k9.run

use std::error::Error;
use std::io::{self, Write};
use std::path::Path;
use std::process::ExitCode;

use gondzselu::{sentence, Step, Store};

/// Code and argument of each step of a file that the store accepted (RULES 3.1).
fn steps(file: &[u8]) -> impl Iterator<Item = (u8, [u8; 8])> + '_ {
    let (registers, tasks) = (usize::from(file[1]), usize::from(file[2]));
    let number = usize::from(u16::from_le_bytes([file[3], file[4]]));
    let (codes, arguments) = file[5 + tasks + 2 * registers..].split_at(number);
    let arguments = arguments.chunks_exact(8);
    let arguments = arguments.map(|bytes| bytes.try_into().expect("eight bytes"));
    codes.iter().copied().zip(arguments)
}

fn play(file: &[u8], out: &mut impl Write) -> Result<(), Box<dyn Error>> {
    let mut store = Store::start_from_file(file)?;
    for (k, (code, argument)) in (0..).zip(steps(file)) {
        match store.step_bytes(code, argument) {
            Ok(taken) if code == 10 => write!(out, "step {k}: taken, value {}", taken.value)?,
            Ok(taken) => write!(out, "step {k}: {taken}")?, // or held
            Err(refusal) => match sentence(k, refusal) {
                Some(words) => write!(out, "{words}")?,
                None => write!(out, "step {k}: {refusal}")?,
            },
        }
        match Step::from_bytes(code, argument) {
            Ok(step) => writeln!(out, " ({step})")?,
            Err(_) => writeln!(out, " (code {code}, argument {argument:?})")?,
        }
    }
    Ok(out.flush()?)
}

fn run() -> Result<(), Box<dyn Error>> {
    let name = std::env::args_os().nth(1).ok_or("usage: steps RUN-FILE")?;
    let name = Path::new(&name);
    let file = std::fs::read(name).map_err(|error| format!("{}: {error}", name.display()))?;
    play(&file, &mut io::BufWriter::new(io::stdout().lock()))
}

fn main() -> ExitCode {
    match run() {
        Ok(()) => ExitCode::SUCCESS,
        Err(words) => {
            let _ = writeln!(io::stderr(), "{words}");
            ExitCode::FAILURE
        }
    }
}
