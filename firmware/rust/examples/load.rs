//! Draws the load of a seed (RULES 17) for the placement of K9 (RULES 3.5) and writes its bytes to
//! standard output: whoever knows the seed and the number of steps has the same file.
//!
//!   cargo run --offline --example load 2026 4096 > ../../target/load.run

use std::error::Error;
use std::ffi::OsString;
use std::io::{self, Write};
use std::process::ExitCode;

use gondzselu::{check_library, load, Placement, LONGEST_FILE};

const PLACE: Placement<'_> = Placement {
    cards: 3,
    homes: &[0, 1, 2],
    copies: &[0b111, 0b010], // register 0 is on all three cards, register 1 on card 1 alone
    primaries: &[0, 1],
};

/// A number of 32 bits in decimal, and nothing else.
fn number(text: &OsString) -> Option<u32> {
    let digits = text.to_str()?;
    let decimal = digits.bytes().all(|byte| byte.is_ascii_digit());
    digits.parse().ok().filter(|_| decimal)
}

fn run() -> Result<(), Box<dyn Error>> {
    check_library()?;
    let arguments: Vec<OsString> = std::env::args_os().skip(1).collect();
    let numbers: Option<Vec<u32>> = arguments.iter().map(number).collect();
    let Some(&[seed, steps]) = numbers.as_deref() else {
        return Err("usage: load SEED (0 to 4294967295) STEPS (0 to 4096)".into());
    };
    let mut output = [0; LONGEST_FILE]; // always enough
    let length = load(seed, PLACE, steps as usize, &mut output)
        .map_err(|refusal| format!("refused with {}: {refusal}", refusal.number()))?;
    let mut out = io::stdout().lock();
    let written = out.write_all(&output[..length]).and_then(|()| out.flush());
    Ok(written.map_err(|error| format!("standard output: {error}"))?)
}

fn main() -> ExitCode {
    match run() {
        Ok(()) => ExitCode::SUCCESS,
        Err(words) => {
            let _ = writeln!(io::stderr(), "{words}");
            ExitCode::FAILURE
        }
    }
}
