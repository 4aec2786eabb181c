//! The cases of `load` that are kept: seeds and numbers of steps at their ends, every refusal of a
//! file, and every sort of wrong arguments.

#[cfg(test)]
mod tests;

use super::load;
use crate::folder::File;
use crate::generate;
use crate::model::files::Run;
use crate::model::placement::Placement;
use crate::named;
use crate::random::Random;
use crate::view::cases::without_steps;

pub struct Case {
    pub name: &'static str,
    pub arguments: Vec<String>,
    pub file: Vec<u8>,
}

fn of(name: &'static str, arguments: &[&str], file: &[u8]) -> Case {
    Case {
        name,
        arguments: arguments.iter().map(|word| word.to_string()).collect(),
        file: file.to_vec(),
    }
}

/// A file without steps.
fn placed(cards: u8, homes: &[u8], registers: &[(u8, u8)]) -> Vec<u8> {
    let placement = Placement::new(cards, homes, registers);
    let steps = Vec::new();
    Run { placement, steps }.write()
}

/// One of `view`'s.
fn unplaced(name: &str) -> Vec<u8> {
    let mut cases = without_steps().into_iter();
    cases.find(|case| case.name == name).expect("a case").file
}

fn k9() -> Vec<u8> {
    let mut runs = named::runs().into_iter();
    runs.find(|run| run.name == "K9").expect("K9").file
}

/// The files that are drawn.
fn drawn() -> Vec<Case> {
    let smallest = unplaced("without_steps");
    let uneven = placed(
        5,
        &[4, 0, 2],
        &[
            (0b11111, 3),
            (0b00010, 1),
            (0b10100, 4),
            (0b01001, 0),
            (0b00100, 2),
            (0b11000, 3),
            (0b00001, 0),
        ],
    );
    let sixteen = placed(
        3,
        &[0, 1, 2, 2, 1, 0, 0, 1, 2, 2, 1, 0, 0, 1, 2, 2],
        &[(7, 1)],
    );
    let longest = generate::longest(&mut Random::new(518, 0));
    vec![
        of(
            "example",
            &["2", "3"],
            &placed(2, &[0, 1], &[(3, 0), (2, 1)]),
        ),
        of("no_steps", &["7", "0"], &k9()),
        of("seed_0", &["0", "40"], &smallest),
        of("seed_1", &["1", "257"], &uneven),
        of("seed_2147483648", &["2147483648", "256"], &uneven),
        of("seed_4294967295", &["4294967295", "255"], &sixteen),
        of("leading_zeros", &["0000002026", "0000000012"], &k9()),
        of("k9", &["2026", "4096"], &k9()),
        of("full", &["518", "4096"], &longest),
    ]
}

/// Good arguments and a file that is refused.
fn refused() -> impl Iterator<Item = Case> {
    let names = [
        "empty",
        "too_short",
        "too_long",
        "size_out_of_range",
        "no_copy",
    ];
    let case = |name| of(name, &["2026", "12"], &unplaced(name));
    names.into_iter().map(case)
}

/// Wrong arguments, with a good file and once with one that is refused.
fn unwanted() -> impl Iterator<Item = Case> {
    let words: [(&str, &[&str]); 12] = [
        ("no_arguments", &[]),
        ("one_argument", &["2026"]),
        ("three_arguments", &["2026", "12", "12"]),
        ("empty_seed", &["", "12"]),
        ("empty_steps", &["2026", ""]),
        ("eleven_digits", &["00000000001", "12"]),
        ("sign", &["+2026", "12"]),
        ("minus", &["2026", "-1"]),
        ("letter", &["2026", "12a"]),
        ("space", &["2026 ", "12"]),
        ("seed_4294967296", &["4294967296", "12"]),
        ("steps_4097", &["2026", "4097"]),
    ];
    let case = |(name, words)| of(name, words, &k9());
    let both = of("letter_and_empty", &["x", "12"], &[]);
    words.into_iter().map(case).chain([both])
}

pub fn cases() -> Vec<Case> {
    drawn()
        .into_iter()
        .chain(refused())
        .chain(unwanted())
        .collect()
}

/// One to a line.
pub fn lines(arguments: &[String]) -> Vec<u8> {
    let lines = arguments.iter().map(|word| format!("{word}\n"));
    lines.collect::<String>().into()
}

/// The files of the folder: for each case its arguments, its input, and the load or the message.
pub fn files() -> Vec<File> {
    let three = |case: Case| {
        let Case {
            name,
            arguments,
            file,
        } = case;
        let said = match load(&arguments, &file) {
            Ok(load) => (format!("{name}.run"), load),
            Err(why) => (format!("{name}.err"), format!("load: {why}\n").into()),
        };
        let arguments = (format!("{name}.args"), lines(&arguments));
        [arguments, (format!("{name}.in"), file), said]
    };
    cases().into_iter().flat_map(three).collect()
}
