//! What the kept cases have, and that the folder has them.

use super::super::{FILES, NAMED_FUNCTIONS, NAMES};
use super::*;
use crate::folder;
use crate::model::files::answer_file;
use crate::sentence::PHRASES;

fn text(name: &str) -> String {
    let mut cases = cases().into_iter();
    view(&cases.find(|case| case.name == name).expect("a case").file)
}

#[test]
fn the_stored_files_are_these() {
    let cases = folder::of_tree("crates/view/cases");
    assert_eq!(folder::compare(&cases, &files()), Ok(()));
}

/// Every phrase of a step but those of 6 and 23, which no file causes; every step taken and
/// every function.
#[test]
fn phrases() {
    let text = text("every_phrase");
    for (number, phrase) in PHRASES {
        let words = format!("refused {number}: {phrase}\n");
        assert_eq!(text.contains(&words), !matches!(number, 6 | 23), "{words}");
    }
    for name in NAMES {
        // A report gives what was read or found.
        let answers: &[&str] = match name {
            "report" => &["taken, value 5", "taken, found 5"],
            _ => &["taken"],
        };
        let steps = text.lines().filter(|line| line.len() > 79);
        for answer in answers {
            let line = |line: &str| line[6..].starts_with(name) && line[79..] == **answer;
            assert!(steps.clone().any(line), "{name} {answer}");
        }
    }
    for name in NAMED_FUNCTIONS {
        let column = |line: &str| line.get(46..).is_some_and(|rest| rest.starts_with(name));
        assert!(text.lines().any(column), "{name}");
    }
    for answer in ["value 0", "found 0", "found 4294967295"] {
        assert!(text.contains(&format!(" taken, {answer}\n")), "{answer}");
    }
    assert!(text.contains(&format!("take single     task   2{:49}held\n", "")));
    // 4,294,967,295 and 3 with function 2, then 3 more with function 5.
    assert!(text.contains("taken, value 2\n"));
}

#[test]
fn refused_files() {
    let names = ["too_short", "too_long", "size_out_of_range", "no_copy"];
    for ((number, phrase), name) in FILES.iter().zip(names) {
        assert_eq!(text(name), format!("refused {number}: {phrase}\n"));
    }
    assert_eq!(text("empty"), text("too_short"));
}

#[test]
fn wide_and_raw() {
    let wide = text("wide_numbers");
    assert!(wide.starts_with("cards 8, registers 32, tasks 16, steps 1107\n"));
    assert_eq!(wide.matches("taken, value 4294967295\n").count(), 2);
    assert!(wide.contains("  set                   4294967295 taken\n"));
    for words in ["task 255  register 255", "card 255", "\n1106  report"] {
        assert!(wide.contains(words), "{words}");
    }
    let raw = text("raw_bytes");
    assert_eq!(raw.matches("  bytes ").count(), 12 + 30 + 9 + 1);
    for number in [10, 11, 12, 13, 15] {
        let refused = format!("refused {number}: ");
        assert!(raw
            .lines()
            .any(|line| line.contains("bytes") && line.contains(&refused)));
    }
}

/// Each step has an answer; `held` stands for a result of 100 and counts as taken.
#[test]
fn answers() {
    let mut held = Vec::new();
    for Case { name, file } in cases() {
        let Ok(answer) = answer_file(&file) else {
            continue;
        };
        let text = view(&file);
        let lines = text.lines().filter_map(|line| line.get(79..));
        let answers: Vec<&str> = lines.collect();
        let of = |word| answers.iter().filter(|line| line.starts_with(word)).count();
        let [taken, refused] = [of("taken") + of("held"), of("refused ")];
        assert_eq!(taken + refused, answers.len(), "{name}");
        let last = format!("\n\ntaken {taken}, refused {refused}\n");
        assert!(text.ends_with(&last), "{name}");
        for (answer, result) in answers.iter().zip(&answer[2..]) {
            assert_eq!(*answer == "held", *result == 100, "{name}");
        }
        held.push((name, of("held")));
    }
    let counts = [
        ("without_steps", 0),
        ("every_phrase", 1),
        ("raw_bytes", 0),
        ("wide_numbers", 0),
        ("full", 53),
    ];
    assert_eq!(held, counts);
}

/// The longest file there is, most of its steps taken, some refused.
#[test]
fn full() {
    let case = cases().pop().expect("a case");
    assert_eq!((case.name, case.file.len()), ("full", 36_949));
    let text = view(&case.file);
    assert!(text.contains("\n4095  "));
    for words in ["refused", ", value ", ", found ", "bytes"] {
        assert!(text.contains(words), "{words}");
    }
}
