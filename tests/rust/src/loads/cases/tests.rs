//! What the kept cases have, and that the folder has them.

use std::collections::BTreeSet;

use super::*;
use crate::folder::{self, of_tree};
use crate::loads::WANTED;
use crate::model::load::wrong::{self, WRONG};
use crate::model::load::Load;
use crate::view;

#[test]
fn the_stored_files_are_these() {
    let cases = of_tree("crates/load/cases");
    assert_eq!(folder::compare(&cases, &files()), Ok(()));
}

fn read(path: &str) -> Vec<u8> {
    std::fs::read(of_tree(path)).expect(path)
}

/// The crate's own example is the first 12 steps of K9's.
#[test]
fn the_example_of_the_crate() {
    let arguments = ["2026", "12"].map(String::from);
    assert_eq!(read("crates/load/args"), lines(&arguments));
    assert_eq!(read("crates/load/stdin"), read("examples/k9.run"));
    let wanted = load(&arguments, &read("examples/k9.run")).expect("a good one");
    assert_eq!(read("crates/load/stdout"), wanted);
}

#[test]
fn no_two_names_are_alike() {
    let cases = cases();
    let names: BTreeSet<&str> = cases.iter().map(|case| case.name).collect();
    assert_eq!(names.len(), cases.len());
}

/// RULES 17.8.
#[test]
fn the_example_of_the_rules() {
    let case = &cases()[0];
    let wanted = [
        2, 2, 2, 3, 0, 0, 1, 3, 2, 0, 1, 2, 3, 6, 0, 1, 2, 0, 0x8D, 0xB7, 0, 0, 1, 0, 0, 0, 0, 0,
        0, 0, 0, 0, 0, 0, 0, 0, 0, 0,
    ];
    assert_eq!(case.name, "example");
    assert_eq!(load(&case.arguments, &case.file), Ok(wanted.into()));
}

/// Files of none, few and the most steps, of one card and of the largest placement.
#[test]
fn what_is_drawn() {
    let sizes = |case: &Case| {
        let file = load(&case.arguments, &case.file).expect(case.name);
        let run = Run::read(&file).expect(case.name);
        let placement = &run.placement;
        let (tasks, registers) = (placement.home.len(), placement.registers.len());
        (placement.cards, tasks, registers, run.steps.len())
    };
    let found: Vec<_> = drawn().iter().map(sizes).collect();
    let wanted = [
        (2, 2, 2, 3),
        (3, 3, 2, 0),
        (1, 1, 1, 40),
        (5, 3, 7, 257),
        (5, 3, 7, 256),
        (3, 16, 1, 255),
        (3, 3, 2, 12),
        (3, 3, 2, 4_096),
        (8, 16, 32, 4_096),
    ];
    assert_eq!(found, wanted);
    let full = drawn().pop().expect("a case");
    assert_eq!(full.file.len(), 36_949, "as long as a file can be");
}

#[test]
fn messages() {
    let refusals = [1, 1, 2, 3, 4].map(view::refused);
    let found: Vec<_> = refused()
        .map(|case| load(&case.arguments, &case.file).expect_err(case.name))
        .collect();
    assert_eq!(found, refusals);
    for case in unwanted() {
        assert_eq!(load(&case.arguments, &case.file), Err(WANTED.into()));
    }
}

/// By those that can be read, so without the two that have every step there can be.
#[test]
fn each_wrong_load_is_noticed() {
    let cases = drawn();
    let cases = &cases[..cases.len() - 2];
    for wrong in WRONG {
        let noticed = |case: &&Case| {
            let words = case.arguments.iter().map(|word| word.parse());
            let numbers: Vec<u32> = words.collect::<Result<_, _>>().expect("two numbers");
            let run = Run::read(&case.file).expect("an accepted file");
            let of = Load::of(numbers[0], &run, numbers[1]);
            wrong::drawn(&of, wrong).ok() != load(&case.arguments, &case.file).ok()
        };
        assert!(cases.iter().any(|case| noticed(&case)), "{wrong:?}");
    }
}
