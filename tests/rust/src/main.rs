//! `compare`: the model's answers, generated files and checks, from the command line.

#[cfg(feature = "library")]
mod linked;
mod usage;

use std::io::Write;
use std::path::Path;
use std::process::ExitCode;

use gondzselu_model::compose;
use gondzselu_model::folder;
use gondzselu_model::generate::{self, Kind};
use gondzselu_model::loads;
use gondzselu_model::model::files::{program_output, RawStep, Run};
use gondzselu_model::named;
use gondzselu_model::random::Random;
use gondzselu_model::roundtrip;
use gondzselu_model::say;
use gondzselu_model::selfcheck::{check, Checked};
use gondzselu_model::sentence::{sentence, PHRASES};
use gondzselu_model::statistics::{self, Statistics};
use gondzselu_model::stored;
use gondzselu_model::sums;
use gondzselu_model::view;
use usage::USAGE;

fn main() -> ExitCode {
    let words: Vec<String> = std::env::args().skip(1).collect();
    let words: Vec<&str> = words.iter().map(String::as_str).collect();
    let result = match words[..] {
        ["names"] => names(),
        ["sentences"] => sentences(),
        ["view", file] => read(file).map(|file| print!("{}", view::view(&file))),
        ["say", file] => say_file(file),
        ["compose", file] => compose_file(file),
        ["sum", file] => read(file).map(|file| print!("{}", sums::sums(&file))),
        ["load", seed, steps, file] => load_file(&[seed, steps], file),
        ["generate", seed, count, directory] => write(seed, count, Path::new(directory)),
        ["stored", directory] => folder::write(Path::new(directory), &stored::files()),
        ["views", directory] => folder::write(Path::new(directory), &view::cases::files()),
        ["says", directory] => folder::write(Path::new(directory), &say::cases::files()),
        ["composes", directory] => folder::write(Path::new(directory), &compose::cases::files()),
        ["sums", directory] => folder::write(Path::new(directory), &sums::cases::files()),
        ["loads", directory] => folder::write(Path::new(directory), &loads::cases::files()),
        ["loaded", programs, seed, count] => loaded(Path::new(programs), seed, count),
        ["printed", programs, seed, count] => printed(Path::new(programs), seed, count),
        ["roundtrip", programs, seed, count] => roundtrips(Path::new(programs), seed, count),
        ["spoiled", seed, item, count] => spoiled(seed, item, count),
        ["statistics", seed, count] => each(seed, count, |_, _| Ok(())),
        ["self", seed, count] => self_checks(seed, count),
        #[cfg(feature = "library")]
        ["library", seed, count] => linked::files(seed, count),
        #[cfg(feature = "library")]
        ["steps", seed, count] => linked::steps(seed, count),
        #[cfg(feature = "library")]
        ["states", seed, count] => linked::states(seed, count),
        #[cfg(feature = "library")]
        ["sentences-library"] => linked::sentences(),
        #[cfg(feature = "library")]
        ["write", seed, count] => linked::write(seed, count),
        #[cfg(feature = "library")]
        ["loading", seed, count] => linked::loads(seed, count),
        #[cfg(feature = "library")]
        ["totals", seed, count] => linked::totals(seed, count),
        _ => Err(format!("what?\n{USAGE}")),
    };
    match result {
        Ok(()) => ExitCode::SUCCESS,
        Err(words) => {
            eprintln!("compare: {words}");
            ExitCode::FAILURE
        }
    }
}

fn number(word: &str) -> Result<u64, String> {
    word.parse().map_err(|_| format!("no number: {word}"))
}

/// Fails where something is missing, of so many that all must be there.
fn reached(count: u64, least: u64, missing: Vec<String>) -> Result<(), String> {
    match count < least {
        true => Ok(()),
        false => statistics::none_missing(missing),
    }
}

fn hex(bytes: &[u8]) -> String {
    bytes.iter().map(|byte| format!("{byte:02x}")).collect()
}

/// A line per run: name, file, answer (a refused file's answer is its refusal). K13 is told
/// as a file without steps, then the steps of a round, how often, and the step that gives 23.
fn names() -> Result<(), String> {
    for run in named::runs() {
        let answer = run.answer.unwrap_or_else(|refusal| vec![refusal]);
        println!("{} {} {}", run.name, hex(&run.file), hex(&answer));
    }
    let k13 = named::k13();
    let step = |(code, argument): RawStep| format!("{code:02x}:{}", hex(&argument));
    let start = Run {
        placement: k13.start,
        steps: Vec::new(),
    };
    println!(
        "K13 {} {} {} {:02x}",
        hex(&start.write()),
        k13.round.map(step).join(","),
        k13.times,
        k13.refusal
    );
    Ok(())
}

/// A line for each refusal of a step, of step 0. With the library, its sentences are compared first.
fn sentences() -> Result<(), String> {
    #[cfg(feature = "library")]
    gondzselu_model::library::sentences::compare()?;
    for (refusal, _) in PHRASES {
        println!("{}", sentence(0, refusal).expect("a phrase"));
    }
    Ok(())
}

fn read(file: &str) -> Result<Vec<u8>, String> {
    std::fs::read(file).map_err(|error| format!("{file}: {error}"))
}

fn say_file(file: &str) -> Result<(), String> {
    let text = say::say(&read(file)?).map_err(|why| format!("say: {why}"))?;
    print!("{text}");
    Ok(())
}

fn compose_file(file: &str) -> Result<(), String> {
    let file = compose::compose(&read(file)?).map_err(|why| format!("compose: {why}"))?;
    print_bytes(&file)
}

fn load_file(arguments: &[&str], file: &str) -> Result<(), String> {
    let load = loads::load(arguments, &read(file)?).map_err(|why| format!("load: {why}"))?;
    print_bytes(&load)
}

fn print_bytes(bytes: &[u8]) -> Result<(), String> {
    let written = std::io::stdout().write_all(bytes);
    written.map_err(|error| format!("standard output: {error}"))
}

fn spoiled(seed: &str, item: &str, count: &str) -> Result<(), String> {
    let text = roundtrip::text(number(seed)?, number(item)?, number(count)?);
    print_bytes(&text)
}

/// Files by `sums` of a folder.
fn printed(programs: &Path, seed: &str, count: &str) -> Result<(), String> {
    let (seed, count) = (number(seed)?, number(count)?);
    let run = |name: &str, input: &[u8]| roundtrip::run(programs, name, input);
    let mut compared = sums::printed::Compared::default();
    for item in 0..count {
        sums::printed::compare(&mut Random::new(seed, item), &run, &mut compared)
            .map_err(|words| format!("seed {seed} item {item}: {words}"))?;
    }
    println!("{compared}");
    reached(count, statistics::FILES, compared.missing())
}

/// Loads by `load` of a folder.
fn loaded(programs: &Path, seed: &str, count: &str) -> Result<(), String> {
    let (seed, count) = (number(seed)?, number(count)?);
    let run = |words: &[String], input: &[u8]| roundtrip::run_with(programs, "load", words, input);
    let cases = loads::loaded::kept(&run)?;
    let mut compared = loads::loaded::Compared::default();
    for item in 0..count {
        loads::loaded::compare(item, &mut Random::new(seed, item), &run, &mut compared)
            .map_err(|words| format!("seed {seed} item {item}: {words}"))?;
    }
    println!("kept cases {cases}; {compared}");
    reached(count, loads::loaded::ITEMS, compared.missing())
}

/// Files and texts by `view` and `compose` of a folder.
fn roundtrips(programs: &Path, seed: &str, count: &str) -> Result<(), String> {
    let (seed, count) = (number(seed)?, number(count)?);
    let run = |name: &str, input: &[u8]| roundtrip::run(programs, name, input);
    let cases = roundtrip::cases(&run)?;
    let compared = roundtrip::all(seed, count, &run)?;
    println!("texts by hand {cases}; {compared}");
    reached(count, statistics::FILES, compared.missing())
}

/// Does something with each file of a seed, prints the statistics, and fails where so many files
/// must have reached more.
fn each(
    seed: &str,
    count: &str,
    mut action: impl FnMut(u64, &[u8]) -> Result<(), String>,
) -> Result<(), String> {
    let (seed, count) = (number(seed)?, number(count)?);
    let mut statistics = Statistics::default();
    for item in 0..count {
        let (kind, file) = generate::file(seed, item);
        statistics.add(kind, &file);
        action(item, &file)
            .map_err(|words| format!("seed {seed} item {item} ({kind:?}): {words}"))?;
    }
    println!("{statistics}");
    reached(count, statistics::FILES, statistics.missing())
}

/// Writes each file as `N.run` and its answer as `N.answer`.
fn write(seed: &str, count: &str, directory: &Path) -> Result<(), String> {
    each(seed, count, |item, file| {
        let pair = [
            (format!("{item:06}.run"), file.to_vec()),
            (format!("{item:06}.answer"), program_output(file)),
        ];
        folder::write(directory, &pair)
    })
}

/// Checks each file and with it a tiny one, for which every order can be tried.
fn self_checks(seed: &str, count: &str) -> Result<(), String> {
    let mut checked = Checked::default();
    let mut random = Random::new(number(seed)?, 0);
    each(seed, count, |_, file| {
        let tiny = generate::file_of(Kind::Tiny, &mut random);
        check(file, &mut checked)?;
        check(&tiny, &mut checked).map_err(|words| format!("its tiny run: {words}"))
    })?;
    let Checked {
        runs,
        steps,
        orders,
        again,
    } = checked;
    println!(
        "checked {runs} runs, {steps} steps, {orders} serial orders, {again} values found by a further holder"
    );
    Ok(())
}
