//! Pictures of a run file and its answer (docs/PICTURES.md).
//!
//!   picture diagram RUN [ANSWER] > page.html     a space-time diagram, for a browser
//!   picture figure RUN [ANSWER] > figure.svg     the diagram alone, for documents
//!   picture waves RUN [ANSWER] > waves.vcd       waveforms, for a VCD viewer
//!   picture bits RUN [ANSWER] > bits.vcd         the same in single bits, for a viewer that asks for them

mod file;
mod follow;
mod lanes;
mod page;
mod run;
mod said;
mod svg;
mod waves;
mod ways;
mod words;

use std::error::Error;
use std::ffi::{OsStr, OsString};
use std::fs::File;
use std::io::{self, Read, Write};
use std::path::Path;
use std::process::ExitCode;

use gondzselu::{answer, check_library, LONGEST_ANSWER, LONGEST_FILE};
use run::Run;

const USAGE: &str = "usage: picture diagram|figure|waves|bits RUN [ANSWER]
RUN is a run file, - for standard input; ANSWER an answer file that it must have.";

/// A file, or as much of one that is too long as shows that it is.
fn read(name: &OsStr, longest: usize) -> Result<Vec<u8>, String> {
    let mut bytes = Vec::new();
    let most = longest as u64 + 1;
    let read = match name == "-" {
        true => io::stdin().lock().take(most).read_to_end(&mut bytes),
        false => File::open(name).and_then(|file| file.take(most).read_to_end(&mut bytes)),
    };
    match read {
        Ok(_) => Ok(bytes),
        Err(error) => Err(format!("{}: {error}", called(name))),
    }
}

/// How messages name a file.
fn called(name: &OsStr) -> String {
    match name == "-" {
        true => "standard input".into(),
        false => Path::new(name).display().to_string(),
    }
}

/// What a picture calls a run: its file without the folders.
fn short(name: &OsStr) -> String {
    let last = Path::new(name).file_name().filter(|_| name != "-");
    last.map_or("run".into(), |last| last.to_string_lossy().into_owned())
}

/// Result and value of a step in an answer file.
fn told(answer: &[u8], place: usize) -> (u8, u32) {
    let steps = (answer.len() - 2) / 5;
    let value = &answer[2 + steps + 4 * place..][..4];
    let value = u32::from_le_bytes(value.try_into().expect("four bytes"));
    (answer[2 + place], value)
}

/// Says where another answer differs from the library's.
fn same(library: &[u8], other: &[u8]) -> Result<(), String> {
    if library == other {
        return Ok(());
    }
    if library.len() != other.len() || library[..2] != other[..2] {
        return Err("is no answer file of so many steps".into());
    }
    let steps = (library.len() - 2) / 5;
    let place = (0..steps).find(|&place| told(library, place) != told(other, place));
    let place = place.unwrap_or(steps);
    let ((result, value), (right, found)) = (told(other, place), told(library, place));
    Err(format!(
        "step {place} has result {result} and value {value}, and the library gives {right} and {found}"
    ))
}

fn run(words: &[OsString]) -> Result<String, Box<dyn Error>> {
    let (picture, name, other) = match words {
        [picture, name] => (picture, name, None),
        [picture, name, other] => (picture, name, Some(other)),
        _ => return Err(USAGE.into()),
    };
    let draw: fn(&Run, &str) -> String = match picture.to_str() {
        Some("diagram") => page::page,
        Some("figure") => page::figure,
        Some("waves") => waves::waves,
        Some("bits") => waves::bits,
        _ => return Err(USAGE.into()),
    };
    check_library()?;
    let file = read(name, LONGEST_FILE)?;
    let run = Run::of(&file).map_err(|why| format!("{}: {why}", called(name)))?;
    let mut output = vec![0; LONGEST_ANSWER];
    let length = answer(&file, &mut output)?;
    let answered = run.steps.iter().map(|step| (step.result(), step.value()));
    if !answered.eq((0..run.steps.len()).map(|place| told(&output[..length], place))) {
        return Err("the library answers the file otherwise than its steps one by one".into());
    }
    if let Some(other) = other {
        let bytes = read(other, LONGEST_ANSWER)?;
        same(&output[..length], &bytes).map_err(|why| format!("{}: {why}", called(other)))?;
    }
    Ok(draw(&run, &short(name)))
}

/// The whole picture is there before its first byte is written.
fn write(picture: &str) -> io::Result<()> {
    let mut out = io::stdout().lock();
    out.write_all(picture.as_bytes())?;
    out.flush()
}

fn main() -> ExitCode {
    let words: Vec<OsString> = std::env::args_os().skip(1).collect();
    let done = run(&words).and_then(|picture| {
        write(&picture).map_err(|error| format!("standard output: {error}").into())
    });
    match done {
        Ok(()) => ExitCode::SUCCESS,
        Err(why) => {
            // Nothing is left to do where this cannot be written either.
            let _ = writeln!(io::stderr(), "{why}");
            ExitCode::FAILURE
        }
    }
}
