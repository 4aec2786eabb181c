//! Honest pictures pass, each with one thing wrong is refused for that thing, and enough is reached.

mod by_hand;
mod honest;
mod wrong;
mod wrong_waves;

use super::compared::FILES;
use super::*;
use crate::generate;
use crate::named;
use crate::sentence::sentence;
use crate::statistics::none_missing;

/// What pictures of a named run must show.
fn wanted(name: &str) -> Wanted {
    let mut runs = named::runs().into_iter();
    let run = runs.find(|run| run.name == name).expect("a named run");
    Wanted::of(&run.file).expect("an accepted file")
}

/// The files of a seed with this program.
fn with(count: u64, program: impl Fn(&[String], &[u8]) -> Ended) -> Result<Compared, String> {
    let mut compared = Compared::default();
    let run = |arguments: &[String], file: &[u8]| Ok(program(arguments, file));
    for item in 0..count {
        compare(&generate::file(SEED, item).1, &run, &mut compared)?;
    }
    Ok(compared)
}

/// As the gate has it.
const SEED: u64 = 1;
const COUNT: u64 = 150;

#[test]
fn named_runs() {
    let mut compared = Compared::default();
    let run = |arguments: &[String], file: &[u8]| Ok(honest::program(arguments, file));
    for named in named::runs() {
        let done = compare(&named.file, &run, &mut compared);
        assert_eq!(done, Ok(()), "{}", named.name);
    }
    assert_eq!((compared.files, compared.refused.len()), (16, 3));
}

#[test]
fn enough_is_reached() {
    assert_eq!(COUNT.max(FILES), COUNT);
    let compared = with(COUNT, honest::program).expect("honest pictures");
    println!("{compared}");
    assert_eq!(compared.files as u64, COUNT);
    assert_eq!(none_missing(compared.missing()), Ok(()));
}
