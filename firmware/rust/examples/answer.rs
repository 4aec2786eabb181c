//! Answers a run file: for each step that is taken its result and its value, and whether its
//! message is held, for each that is refused a sentence, then how many were taken and how many
//! refused; of a refused file its number.
//!
//!   cargo run --offline --example answer ../../examples/k9.run

use std::error::Error;
use std::fs::File;
use std::io::{self, BufWriter, Read, Write};
use std::path::Path;
use std::process::ExitCode;

use gondzselu::{answer_counted, check_library, sentence, Refusal, Tally};
use gondzselu::{HELD, LONGEST_ANSWER, LONGEST_FILE};

/// The file, or as much of one that is too long as shows that it is.
fn read(name: &Path) -> io::Result<Vec<u8>> {
    let mut file = Vec::new();
    let most = LONGEST_FILE as u64 + 1;
    File::open(name)?.take(most).read_to_end(&mut file)?;
    Ok(file)
}

fn write(file: &[u8], out: &mut impl Write) -> io::Result<()> {
    let mut output = vec![0; LONGEST_ANSWER];
    let mut tally = Tally::default();
    let length = match answer_counted(file, &mut output, &mut tally) {
        Ok(length) => length,
        Err(refusal) => return writeln!(out, "refused: {}", refusal.number()),
    };
    let (results, values) = output[2..length].split_at((length - 2) / 5);
    for (k, (&result, value)) in (0..).zip(results.iter().zip(values.chunks_exact(4))) {
        let value = u32::from_le_bytes([value[0], value[1], value[2], value[3]]);
        match Refusal::from_number(result).and_then(|refusal| sentence(k, refusal)) {
            Some(words) => writeln!(out, "{words}")?,
            None if result == HELD => writeln!(out, "step {k}: {result}, {value} (held)")?,
            None => writeln!(out, "step {k}: {result}, {value}")?,
        }
    }
    writeln!(out, "taken {}, refused {}", tally.taken, tally.refused)
}

fn run() -> Result<(), Box<dyn Error>> {
    check_library()?;
    let name = std::env::args_os().nth(1).ok_or("usage: answer RUN-FILE")?;
    let name = Path::new(&name);
    let file = read(name).map_err(|error| format!("{}: {error}", name.display()))?;
    let mut out = BufWriter::new(io::stdout().lock());
    let written = write(&file, &mut out).and_then(|()| out.flush());
    Ok(written.map_err(|error| format!("standard output: {error}"))?)
}

fn main() -> ExitCode {
    match run() {
        Ok(()) => ExitCode::SUCCESS,
        Err(words) => {
            // Nothing is left to do where this cannot be written either.
            let _ = writeln!(io::stderr(), "{words}");
            ExitCode::FAILURE
        }
    }
}
