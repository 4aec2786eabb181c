//! What version 0.6.0 stored, when a step 8 whose message is held had the result 0 of any taken step (RULES
//! 5.8). With what `found` undoes, each 100 made 0 again, and each `held` of a text `taken`, all is as it was,
//! byte for byte. And a step has 100 just where the state after it holds its message.

use super::folders::Folder;
use super::{checksum, compare_named, compare_stored, found, held_as_taken, Row};
use crate::folder::File;
use crate::generate;
use crate::model::files::{program_output, Run};
use crate::model::results::taken;
use crate::model::State;
use crate::{compose, say, view};

/// Each run stored then, the checksum of its answer, and how many of its results are 100 now.
const RUNS: [Row; 17] = [
    ("past1", 0x75CD_CC81_E88B_D349, 0),
    ("past2", 0xD2BD_32F5_39E4_571C, 0),
    ("past3", 0x502D_8005_2BAD_B3DB, 0),
    ("past4", 0x1F31_3E81_5394_CF54, 0),
    ("outbox", 0x9C31_1A20_E8E0_6AEB, 0),
    ("held", 0x8175_916C_018C_6343, 16),
    ("counts", 0x463A_4689_BE16_9CFA, 0),
    ("full1", 0x2A80_32E0_BFB5_E277, 54),
    ("full2", 0xD9A7_CCB0_4BDE_BEC2, 64),
    ("guided", 0x591A_F6FD_A77D_C020, 26),
    ("full3", 0x5728_6CF7_CB47_344A, 61),
    ("mixed", 0x71CF_E5ED_EEFB_FB17, 28),
    ("k11", 0x6BAA_6DCE_868F_BE1C, 0),
    ("k12", 0xB34B_1BA8_14A0_0CE3, 0),
    ("behind", 0x5645_CCF1_97A8_325A, 0),
    ("inbox", 0x0FCB_6258_33EE_2434, 0),
    ("full4", 0xE356_23EB_B9C7_6F6A, 63),
];

/// The same of the named runs.
const NAMED: [Row; 15] = [
    ("K1", 0x0832_8807_B4EB_6FED, 0),
    ("K2", 0xE1C0_AEC4_0A3F_AA56, 0),
    ("K3", 0xAF63_BC4C_8601_B62C, 0),
    ("K4-nine", 0xAF63_BE4C_8601_B992, 0),
    ("K4-eight", 0x0832_8807_B4EB_6FED, 0),
    ("K5", 0xAF63_B94C_8601_B113, 0),
    ("K6", 0xAF63_B94C_8601_B113, 0),
    ("K7", 0x70BA_09F8_4757_8E5B, 0),
    ("K8", 0xB6CC_9F95_7B0C_5254, 0),
    ("K9", 0xD340_F4E3_5387_71FB, 1),
    ("K10", 0x9648_9FAD_42FA_C087, 1),
    ("two-held", 0xF285_EAAF_B45F_D7EF, 2),
    ("counter", 0xDE3F_5BDE_7B7A_054C, 0),
    ("K11", 0x6BAA_6DCE_868F_BE1C, 0),
    ("K12", 0xB34B_1BA8_14A0_0CE3, 0),
];

const FOLDERS: [Folder; 3] = [
    Folder {
        files: view::cases::files,
        then: 0x0170_1C24_EBF2_F316,
        changed: &["every_phrase.txt", "full.txt"],
        new: &[],
    },
    Folder {
        files: say::cases::files,
        then: 0x31EE_7126_412A_DD68,
        changed: &[
            "cut_short.answer",
            "every_refusal.answer",
            "k9.answer",
            "long_run.answer",
            "too_long.answer",
        ],
        new: &[
            "held.answer",
            "held.txt",
            "result_101.answer",
            "result_101.err",
            "result_99.answer",
            "result_99.err",
        ],
    },
    Folder {
        files: compose::cases::files,
        then: 0x6AB7_07D3_9DD7_8C91,
        changed: &["no_last_newline.txt", "other_line_ends.txt"],
        new: &["held.run", "held.txt", "heldx.err", "heldx.txt"],
    },
];

/// A text as it was then, whatever its bytes.
fn text_of_then(text: &[u8]) -> Vec<u8> {
    let text: String = text.iter().map(|&byte| byte as char).collect();
    let text = text.replace(" held", " taken");
    text.chars().map(|c| c as u8).collect()
}

fn file_of_then((name, bytes): &File) -> Vec<u8> {
    match name.rsplit_once('.') {
        Some((_, "answer")) => held_as_taken(bytes.clone()),
        Some((_, "txt")) => text_of_then(bytes),
        _ => bytes.clone(),
    }
}

/// How many results of an answer are 100.
fn hundreds(answer: &[u8]) -> usize {
    let steps = answer.len().saturating_sub(2) / 5;
    let results = answer.iter().skip(2).take(steps);
    results.filter(|result| **result == 100).count()
}

/// How many messages a run holds. Each step with 100 is a step 8 that leaves its message held at its
/// destination, behind all others and not in the inbox; each other step 8 that is taken leaves it in the
/// inbox, behind all others and not held.
fn holds(name: &str, file: &[u8]) -> usize {
    let Ok(run) = Run::read(file) else { return 0 };
    let mut state = State::start(run.placement).expect("an accepted placement");
    let mut count = 0;
    for (place, (code, argument)) in run.steps.into_iter().enumerate() {
        let before = state.channel.clone();
        let (result, _) = state.step_reached(code, argument);
        if code != 8 || !taken(result) {
            assert_ne!(result, 100, "{name} {place}");
            continue;
        }
        let single = before.flight[argument[0] as usize].expect("in flight");
        let card = single.destination();
        let (mut inbox, mut held) = (before.inbox[card].clone(), before.held[card].clone());
        match result {
            100 => held.push(single),
            _ => inbox.push_back(single.message),
        }
        assert_eq!(state.channel.inbox[card], inbox, "{name} {place}");
        assert_eq!(state.channel.held[card], held, "{name} {place}");
        count += state.channel.held[card].len() - before.held[card].len();
    }
    count
}

/// Holds an answer of now to that of then.
fn compare(name: &str, file: &[u8], answer: Vec<u8>, then: u64, count: usize) {
    assert_eq!(hundreds(&answer), count, "{name}");
    let was = held_as_taken(found::answer_of_then(file, answer));
    assert_eq!(checksum(&was), then, "{name}");
    assert_eq!(holds(name, file), count, "{name}");
}

#[test]
fn stored_answers() {
    compare_stored(RUNS, compare);
}

#[test]
fn named_runs() {
    compare_named(NAMED, compare);
}

#[test]
fn cases_of_programs() {
    for folder in FOLDERS {
        folder.compare(found::files_of_then((folder.files)()), file_of_then);
    }
}

/// On any files: 100 where a message is held, and nowhere else. Some hold none.
#[test]
fn generated_runs() {
    let files = (0..400).map(|item| generate::file(6, item).1);
    let accepted = files.filter(|file| Run::read(file).is_ok());
    let counts = accepted.map(|file| {
        let count = holds("generated", &file);
        assert_eq!(hundreds(&program_output(&file)), count);
        count
    });
    let (none, some): (Vec<_>, Vec<_>) = counts.partition(|count| *count == 0);
    assert!(none.len() > 50 && some.len() > 50);
}

/// Results alone are made those of then: not N, and no value.
#[test]
fn what_is_made_of_an_answer() {
    let values = [100, 0, 0, 0, 0, 100, 100, 100];
    let answer = |results: [u8; 2]| [&[2, 0][..], &results, &values].concat();
    assert_eq!(held_as_taken(answer([100, 34])), answer([0, 34]));
    assert_eq!(held_as_taken(answer([99, 101])), answer([99, 101]));
    let many = [&[100, 0][..], &[0; 500]].concat();
    assert_eq!(held_as_taken(many.clone()), many);
    assert_eq!(held_as_taken(vec![100]), [100]);
}
