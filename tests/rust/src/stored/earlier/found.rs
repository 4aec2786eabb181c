//! What version 0.7.0 stored, when the report of an update had the value 0 (RULES 5.10). With each such value
//! made 0 again, and each `taken, found V` of a text `taken`, all is as it was, byte for byte. And an update has
//! a value just where the state before its report has the task done with an update that found it.

use super::folders::Folder;
use super::{checksum, compare_named, compare_stored, found_as_zero, Row};
use crate::folder::File;
use crate::generate;
use crate::model::files::{program_output, write_answer, RawStep, Run};
use crate::model::placement::Placement;
use crate::model::step::Step;
use crate::model::{State, Task, Value};
use crate::steps::*;
use crate::{compose, say, stored, view};

/// Each run stored then, the checksum of its answer, and how many of its updates report a value above 0 now.
const RUNS: [Row; 17] = [
    ("past1", 0x75CD_CC81_E88B_D349, 23),
    ("past2", 0xD2BD_32F5_39E4_571C, 23),
    ("past3", 0x502D_8005_2BAD_B3DB, 24),
    ("past4", 0x1F31_3E81_5394_CF54, 23),
    ("outbox", 0x9C31_1A20_E8E0_6AEB, 15),
    ("held", 0x7D6D_96DB_1865_3943, 0),
    ("counts", 0x463A_4689_BE16_9CFA, 24),
    ("full1", 0x4856_3AE0_0792_1D87, 175),
    ("full2", 0x7AF0_780D_25FC_66DA, 226),
    ("guided", 0x70A1_02D5_DD86_2198, 113),
    ("full3", 0x3987_9DC7_1623_ABCE, 172),
    ("mixed", 0x769C_5F5B_6BAE_425F, 167),
    ("k11", 0x6BAA_6DCE_868F_BE1C, 23),
    ("k12", 0xB34B_1BA8_14A0_0CE3, 32),
    ("behind", 0x5645_CCF1_97A8_325A, 24),
    ("inbox", 0x0FCB_6258_33EE_2434, 31),
    ("full4", 0x820E_F404_3E4E_794E, 261),
];

/// The same of the named runs.
const NAMED: [Row; 15] = [
    ("K1", 0x0832_8807_B4EB_6FED, 0),
    ("K2", 0xE1C0_AEC4_0A3F_AA56, 0),
    ("K3", 0xAF63_BC4C_8601_B62C, 0),
    ("K4-nine", 0xAF63_BE4C_8601_B992, 0),
    ("K4-eight", 0x0832_8807_B4EB_6FED, 0),
    ("K5", 0xAF63_B94C_8601_B113, 0),
    ("K6", 0xAF63_B94C_8601_B113, 0),
    ("K7", 0x70BA_09F8_4757_8E5B, 0),
    ("K8", 0xB6CC_9F95_7B0C_5254, 0),
    ("K9", 0x8DCD_90F4_3B9B_1CD7, 0),
    ("K10", 0x95BD_BCDC_D9F6_C09B, 0),
    ("two-held", 0x33CF_08EB_E168_CA3F, 0),
    ("counter", 0xDE3F_5BDE_7B7A_054C, 2),
    ("K11", 0x6BAA_6DCE_868F_BE1C, 23),
    ("K12", 0xB34B_1BA8_14A0_0CE3, 32),
];

const FOLDERS: [Folder; 3] = [
    Folder {
        files: view::cases::files,
        then: 0x63BB_2A56_DE71_E964,
        changed: &["every_phrase.txt", "full.txt", "wide_numbers.txt"],
        new: &[],
    },
    Folder {
        files: say::cases::files,
        then: 0x8767_6CC6_A72B_CA79,
        changed: &["every_refusal.answer", "long_run.answer"],
        new: &[],
    },
    Folder {
        files: compose::cases::files,
        then: 0x0638_D005_17B4_C44E,
        changed: &[],
        new: &[],
    },
];

/// An answer as it was then; that to a refused file is its refusal.
pub fn answer_of_then(file: &[u8], answer: Vec<u8>) -> Vec<u8> {
    match Run::read(file) {
        Ok(run) => found_as_zero(&run, answer),
        Err(_) => answer,
    }
}

/// A text as it was then, whatever its bytes.
fn text_of_then(text: &[u8]) -> Vec<u8> {
    let text: String = text.iter().map(|&byte| byte as char).collect();
    let lines = text
        .split('\n')
        .map(|line| match line.split_once(", found ") {
            Some((rest, value)) if value.parse::<u32>().is_ok() => rest,
            _ => line,
        });
    let lines: Vec<&str> = lines.collect();
    lines.join("\n").chars().map(|c| c as u8).collect()
}

/// The run that an input of `say` is the answer to, if updates are reported there. Others are made by
/// hand, or of K9.
fn run_of(name: &str) -> Option<Vec<u8>> {
    match name {
        "every_refusal.answer" => {
            let mut cases = view::cases::cases().into_iter();
            let case = cases.find(|case| case.name == "every_phrase");
            Some(case.expect("a case of view").file)
        }
        "long_run.answer" => Some(stored::file("full1")),
        _ => None,
    }
}

fn file_of_then((name, bytes): &File) -> Vec<u8> {
    match (name.rsplit_once('.'), run_of(name)) {
        (_, Some(run)) => answer_of_then(&run, bytes.clone()),
        (Some((_, "txt")), _) => text_of_then(bytes),
        _ => bytes.clone(),
    }
}

/// The cases of a program as they were then.
pub fn files_of_then(files: Vec<File>) -> Vec<File> {
    let files = files.into_iter();
    files
        .map(|file| (file.0.clone(), file_of_then(&file)))
        .collect()
}

/// The places of a run that report an update which found a value above 0, by the states before them. Every
/// value that is answered is the one in such a state, read or found.
fn finds(name: &str, file: &[u8]) -> Vec<usize> {
    let Ok(run) = Run::read(file) else {
        return Vec::new();
    };
    let mut state = State::start(run.placement).expect("an accepted placement");
    let mut places = Vec::new();
    for (place, (code, argument)) in run.steps.into_iter().enumerate() {
        let done = match state.allowed(code, argument) {
            Ok(Step::Report { task }) => match state.tasks[task] {
                Task::Done(value) => Some(value),
                _ => None,
            },
            _ => None,
        };
        let (_, value) = state.step_reached(code, argument);
        assert_eq!(value, done.map_or(0, Value::word), "{name} {place}");
        if matches!(done, Some(Value::Found(found)) if found != 0) {
            places.push(place);
        }
    }
    places
}

/// The places at which the values of two answers of one length are not the same.
fn others(one: &[u8], other: &[u8]) -> Vec<usize> {
    assert_eq!(one.len(), other.len());
    let steps = one.len().saturating_sub(2) / 5;
    let value = |answer: &[u8], place: usize| answer[2 + steps + 4 * place..][..4].to_vec();
    let places = (0..steps).filter(|&place| value(one, place) != value(other, place));
    places.collect()
}

/// Holds an answer of now to that of then.
fn compare(name: &str, file: &[u8], answer: Vec<u8>, then: u64, count: usize) {
    let was = answer_of_then(file, answer.clone());
    assert_eq!(checksum(&was), then, "{name}");
    let finds = finds(name, file);
    assert_eq!(finds, others(&answer, &was), "{name}");
    assert_eq!(finds.len(), count, "{name}");
}

#[test]
fn stored_answers() {
    compare_stored(RUNS, compare);
}

#[test]
fn named_runs() {
    compare_named(NAMED, compare);
}

#[test]
fn cases_of_programs() {
    for folder in FOLDERS {
        folder.compare((folder.files)(), file_of_then);
    }
}

/// On any files: what is made 0 is what updates found, and nothing else. In some they find only 0.
#[test]
fn generated_runs() {
    let files = (0..400).map(|item| generate::file(7, item).1);
    let accepted = files.filter(|file| Run::read(file).is_ok());
    let counts = accepted.map(|file| {
        let answer = program_output(&file);
        let was = answer_of_then(&file, answer.clone());
        let finds = finds("generated", &file);
        assert_eq!(finds, others(&answer, &was));
        finds.len()
    });
    let (none, some): (Vec<_>, Vec<_>) = counts.partition(|count| *count == 0);
    assert!(none.len() > 50 && some.len() > 50);
}

/// Values of taken reports of updates alone are made 0: not that of a read, nor of a refused report, and a
/// refused request counts for nothing.
#[test]
fn what_is_made_of_an_answer() {
    let steps: Vec<(RawStep, u8, bool)> = vec![
        (report(0), 21, true),
        (set(0, 0, 5), 0, true),
        (request_read(0, 0), 20, true),
        (report(0), 21, true),
        (perform(0), 0, true),
        (report(0), 0, false),
        (request_read(0, 0), 0, true),
        (set(0, 0, 5), 20, true),
        (perform(0), 0, true),
        (report(0), 0, true),
        (report(0), 21, true),
        (report(1), 0, true),
    ];
    let run = Run {
        placement: Placement::new(1, &[0, 0], &[(1, 0)]),
        steps: steps.iter().map(|step| step.0).collect(),
    };
    let results = || steps.iter().map(|step| step.1);
    let before = results().map(|result| (result, u32::MAX));
    let after = steps.iter().map(|&(_, result, stays)| match stays {
        true => (result, u32::MAX),
        false => (result, 0),
    });
    let [before, after] =
        [before.collect::<Vec<_>>(), after.collect()].map(|all| write_answer(&all));
    assert_eq!(found_as_zero(&run, before), after);
    assert_eq!(answer_of_then(&[3], vec![3]), [3]);
}

/// Only a number behind `found` is taken away.
#[test]
fn what_is_made_of_a_text() {
    let of = |text: &[u8]| text_of_then(text);
    assert_eq!(
        of(b"1 taken, found 4294967295\n2 taken, value 7\n"),
        b"1 taken\n2 taken, value 7\n"
    );
    assert_eq!(
        of(b"taken, found x\n\xFF, found"),
        b"taken, found x\n\xFF, found"
    );
}
