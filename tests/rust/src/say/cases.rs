//! The cases of `say` that are kept: answer files with every phrase, and files that are none.

use super::{say, STEPS};
use crate::folder::File;
use crate::model::files::{program_output, write_answer};
use crate::sentence::PHRASES;
use crate::{named, stored, view};

pub struct Case {
    pub name: String,
    pub file: Vec<u8>,
}

/// Values whose bytes could be taken for results, with a phrase and without. `say` looks at none.
const VALUES: [u32; 4] = [0x2306_210C, 0, 0x0101_0101, u32::MAX];

/// Numbers that are no result, at both ends of each gap between those that are.
const WITHOUT: [u8; 12] = [1, 5, 7, 9, 16, 19, 24, 29, 36, 99, 101, 255];

/// An answer file made by hand of results.
fn by_hand(results: impl IntoIterator<Item = u8>) -> Vec<u8> {
    let values = VALUES.into_iter().cycle();
    let answers: Vec<_> = results.into_iter().zip(values).collect();
    write_answer(&answers)
}

/// Every number with a phrase, in turn.
fn refusals() -> impl Iterator<Item = u8> {
    let numbers = PHRASES.map(|(number, _)| number);
    numbers.into_iter().cycle()
}

fn k9() -> Vec<u8> {
    let mut runs = named::runs().into_iter();
    program_output(&runs.find(|run| run.name == "K9").expect("a named run").file)
}

/// The answer to a run of crates/view/cases with every refusal that a file can cause.
fn every_refusal() -> Vec<u8> {
    let mut cases = view::cases::cases().into_iter();
    let case = cases.find(|case| case.name == "every_phrase");
    program_output(&case.expect("a case of view").file)
}

/// The answer to a run of crates/runs/data with 4,096 steps.
fn long_run() -> Vec<u8> {
    program_output(&stored::file("full1"))
}

/// 4,096 steps, every one refused, and the last with this.
fn full(last: u8) -> Vec<u8> {
    by_hand(refusals().take(STEPS - 1).chain([last]))
}

/// Answer files.
fn good() -> Vec<(&'static str, Vec<u8>)> {
    vec![
        ("k9", k9()),
        ("no_steps", by_hand([])),
        ("no_refusals", by_hand([0; 16])),
        ("held", by_hand([100, 0, 100, 12, 0, 100, 100])),
        ("every_refusal", every_refusal()),
        (
            "by_hand",
            by_hand([0, 23, 6, 0].into_iter().chain(refusals().take(17))),
        ),
        ("long_run", long_run()),
        ("full", full(35)),
    ]
}

/// Files that are none.
fn bad() -> Vec<(&'static str, Vec<u8>)> {
    let answer = by_hand([12, 36]);
    let more = |file: &[u8]| [file, &[0]].concat();
    let less = |file: &[u8]| file[..file.len() - 1].to_vec();
    vec![
        ("empty", Vec::new()),
        ("refused_file", vec![3]),
        ("without_results", vec![1, 0]),
        ("cut_short", less(&k9())),
        ("too_long", more(&k9())),
        ("too_long_without_steps", more(&by_hand([]))),
        ("too_many_steps", by_hand([0; STEPS + 1])),
        ("too_many_before_short", vec![1, 16]),
        ("most_steps", vec![255, 255]),
        ("short_before_phrase", less(&answer)),
        ("long_before_phrase", more(&answer)),
        ("last_without_phrase", full(36)),
    ]
}

pub fn cases() -> Vec<Case> {
    let named = good().into_iter().chain(bad());
    let named = named.map(|(name, file)| (name.to_string(), file));
    let result = |number| (format!("result_{number}"), by_hand([0, 12, number, 0]));
    let all = named.chain(WITHOUT.map(result));
    all.map(|(name, file)| Case { name, file }).collect()
}

/// The files of the folder: each input with what is printed for it, or with the message.
pub fn files() -> Vec<File> {
    let pair = |Case { name, file }| {
        let said = match say(&file) {
            Ok(text) => (format!("{name}.txt"), text.into_bytes()),
            Err(why) => (format!("{name}.err"), format!("say: {why}\n").into_bytes()),
        };
        [said, (format!("{name}.answer"), file)]
    };
    cases().into_iter().flat_map(pair).collect()
}

#[cfg(test)]
mod tests {
    use std::collections::{BTreeMap, BTreeSet};

    use super::*;
    use crate::folder;
    use crate::sentence::sentence;

    #[test]
    fn the_stored_files_are_these() {
        let cases = folder::of_tree("crates/say/cases");
        assert_eq!(folder::compare(&cases, &files()), Ok(()));
    }

    #[test]
    fn no_two_names_are_alike() {
        let cases = cases();
        let names: BTreeSet<&str> = cases.iter().map(|case| case.name.as_str()).collect();
        assert_eq!(names.len(), cases.len());
    }

    #[test]
    fn answer_files() {
        let mut texts = BTreeMap::new();
        for (name, file) in good() {
            let text = say(&file).expect(name);
            let steps = u16::from_le_bytes([file[0], file[1]]) as usize;
            let results = file[2..2 + steps].iter();
            let refused = results.filter(|result| (6..=35).contains(*result));
            let (refused, lines) = (refused.count(), text.lines().count());
            assert_eq!(lines, refused + 1, "{name}");
            let last = format!("taken {}, refused {refused}", steps - refused);
            assert_eq!(text.lines().last(), Some(&*last), "{name}");
            texts.insert(name, text);
        }
        assert_eq!(texts["no_steps"], "taken 0, refused 0\n");
        assert_eq!(texts["no_refusals"], "taken 16, refused 0\n");
        let held = "step 3: there is no such task\ntaken 6, refused 1\n";
        assert_eq!(texts["held"], held);
        for (number, phrase) in PHRASES {
            let has = |name| texts[name].contains(&format!(": {phrase}\n"));
            let of_a_file = !matches!(number, 6 | 23);
            assert!(has("by_hand") && has("full"), "{number}");
            assert_eq!(has("every_refusal"), of_a_file, "{number}");
            // 35 does not come in that run (`stored`).
            assert_eq!(has("long_run"), of_a_file && number != 35, "{number}");
        }
        assert!(texts["by_hand"].starts_with("step 1: no requests are left\nstep 2: the store "));
        let last = sentence(4_095, 35).expect("a phrase") + "\ntaken 0, refused 4096\n";
        assert!(texts["full"].ends_with(&last));
        // More than a program gathers before it writes, and than a pipe holds.
        assert!(texts["full"].len() > 65_536);
    }

    #[test]
    fn others() {
        let short = "the answer file is cut short";
        let long = "the answer file is too long";
        let many = "the answer file has more than 4096 steps";
        let without = "a result has no phrase";
        let why = [
            ("empty", short),
            ("refused_file", short),
            ("without_results", short),
            ("cut_short", short),
            ("too_long", long),
            ("too_long_without_steps", long),
            ("too_many_steps", many),
            ("too_many_before_short", many),
            ("most_steps", many),
            ("short_before_phrase", short),
            ("long_before_phrase", long),
            ("last_without_phrase", without),
        ];
        for ((name, file), why) in bad().into_iter().zip(why) {
            assert_eq!((name, say(&file)), (why.0, Err(why.1)));
        }
        assert_eq!(bad().len(), why.len());
        for number in WITHOUT {
            assert_eq!(say(&by_hand([0, 12, number, 0])), Err(without), "{number}");
        }
    }
}
