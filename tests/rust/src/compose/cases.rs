//! The cases of `compose`: texts that are runs, and for each message texts that are none. Some are
//! kept in the tree; `.ci/roundtrip` tries all. What `view` prints of its own cases is not kept again.

mod answered;
mod good;
mod placed;
mod understood;
mod whole;

use super::compose;
use crate::folder::File;

pub struct Case {
    pub name: &'static str,
    pub text: Vec<u8>,
    /// Worked out by hand: the run file, or the message.
    pub wanted: Result<Vec<u8>, String>,
}

/// A name, a text that is no run, and its message.
type Wrong = (&'static str, Vec<u8>, &'static str);

/// A text without anything that may be left out.
const PLAIN: [&str; 7] = [
    "cards 2",
    "task 0 home card 0",
    "task 1 home card 1",
    "register 0 primary card 0 copies on 0 1",
    "register 1 primary card 1 copies on 1",
    "dispatch card 0",
    "report task 1",
];

fn text<'a>(lines: impl IntoIterator<Item = &'a str>) -> Vec<u8> {
    let lines = lines.into_iter();
    lines
        .flat_map(|line| [line, "\n"])
        .collect::<String>()
        .into()
}

/// The plain text with other words in these lines, counted from 1; past its end, one more.
fn changed(lines: &[(usize, &str)]) -> Vec<u8> {
    let mut all = PLAIN.to_vec();
    for &(line, words) in lines {
        all.resize(all.len().max(line), "");
        all[line - 1] = words;
    }
    text(all)
}

fn with(line: usize, words: &str) -> Vec<u8> {
    changed(&[(line, words)])
}

/// The plain text with lines more before this place, counted from 1.
fn more(line: usize, words: &[&str]) -> Vec<u8> {
    let (before, after) = PLAIN.split_at(line - 1);
    text([before, words, after].concat())
}

/// So many tasks and registers, and then these lines.
fn many(tasks: usize, registers: usize, more: &[&str]) -> Vec<u8> {
    let task = |task| format!("task {task} home card 0\n");
    let register = |register| format!("register {register} primary card 0 copies on 0\n");
    let tasks = (0..tasks).map(task).collect::<String>();
    let registers = (0..registers).map(register).collect::<String>();
    let lines = more.iter().flat_map(|line| [*line, "\n"]);
    let lines: String = lines.collect();
    ["cards 1\n", &tasks, &registers, &lines].concat().into()
}

/// A line with blanks behind it, so many bytes long.
fn padded(line: &str, length: usize) -> String {
    line.to_string() + &" ".repeat(length - line.len())
}

pub fn cases() -> Vec<Case> {
    let good = good::cases().into_iter();
    let good = good.map(|(name, text, run)| (name, text, Ok(run)));
    let wrong = placed::cases().into_iter().chain(whole::cases());
    let wrong = wrong.map(|(name, text, message)| (name, text, Err(message.to_string())));
    let unclear = understood::cases().into_iter();
    let unclear = unclear.map(|(name, text, line)| {
        let message = format!("line {line} is not understood");
        (name, text, Err(message))
    });
    let case = |(name, text, wanted)| Case { name, text, wanted };
    good.chain(unclear).chain(wrong).map(case).collect()
}

/// Those without a run that are kept: at least two for each message.
const KEPT: [&str; 22] = [
    "bytes_eight",
    "heldx",
    "holder_8",
    "line_256",
    "operand_4294967296",
    "refused_file",
    "step_cut",
    "takenx",
    "second_sizes",
    "step_after_counts",
    "step_left_out",
    "task_twice",
    "register_33",
    "task_17",
    "told_steps_3",
    "told_tasks_1",
    "cards_0",
    "cards_9",
    "home_on_absent_card",
    "no_copy",
    "empty",
    "no_registers",
];

/// The cases of the folder: most that are runs, and few that are none.
fn kept() -> impl Iterator<Item = Case> {
    let long = |name: &str| name == "most_steps";
    let cases = cases().into_iter();
    cases.filter(move |case| match case.wanted {
        Ok(_) => !long(case.name),
        Err(_) => KEPT.contains(&case.name),
    })
}

/// The files of the folder: each text with the run file, or with the message.
pub fn files() -> Vec<File> {
    let pair = |Case { name, text, .. }| {
        let said = match compose(&text) {
            Ok(file) => (format!("{name}.run"), file),
            Err(why) => (format!("{name}.err"), format!("compose: {why}\n").into()),
        };
        [said, (format!("{name}.txt"), text)]
    };
    kept().flat_map(pair).collect()
}

#[cfg(test)]
mod tests {
    use std::collections::{BTreeMap, BTreeSet};

    use super::*;
    use crate::compose::{sort, sorts};
    use crate::folder;

    #[test]
    fn the_stored_files_are_these() {
        let cases = folder::of_tree("crates/compose/cases");
        assert_eq!(folder::compare(&cases, &files()), Ok(()));
    }

    #[test]
    fn no_two_names_are_alike() {
        let cases = cases();
        let names: BTreeSet<&str> = cases.iter().map(|case| case.name).collect();
        assert_eq!(names.len(), cases.len());
    }

    #[test]
    fn what_is_wanted() {
        for Case { name, text, wanted } in cases() {
            assert_eq!(compose(&text), wanted, "{name}");
        }
    }

    #[test]
    fn what_is_kept() {
        let wrong = kept().filter(|case| case.wanted.is_err());
        let found: BTreeSet<&str> = wrong.map(|case| case.name).collect();
        assert_eq!(found, BTreeSet::from(KEPT));
    }

    /// Every message but that of a text that is too long, at least twice.
    #[test]
    fn messages() {
        let mut messages: BTreeMap<String, usize> = BTreeMap::new();
        for message in kept().filter_map(|case| case.wanted.err()) {
            *messages.entry(sort(&message)).or_default() += 1;
        }
        let found: Vec<&String> = messages.keys().collect();
        let mut wanted = sorts();
        wanted.sort();
        assert_eq!(found, wanted.iter().collect::<Vec<_>>());
        assert!(messages.values().all(|&count| count >= 2));
    }
}
