//! The stored runs of earlier versions, by checksum. The model is asked as it was then, and today's
//! answers are told apart from those of then: `functions` of version 0.2.0, `behind` of 0.4.0, `held` of
//! 0.6.0, `found` of 0.7.0. What came later is undone first.

mod behind;
mod folders;
mod found;
mod functions;
mod held;

use std::collections::BTreeSet;

use crate::model::files::{answer_from, program_output, Run};
use crate::model::results::{taken, DONE, HELD};
use crate::model::State;
use crate::named::{self, Named};
use crate::statistics::Statistics;
use crate::stored;

/// The named runs without `tickets`, which is of version 0.8.0.
fn named_then() -> Vec<Named> {
    let mut runs = named::runs();
    runs.retain(|run| run.name != "tickets");
    runs
}

/// A run, the checksum of its answer then, and how much of its answer is otherwise now.
type Row = (&'static str, u64, usize);

/// Holds an answer of now to that of then: name, file, answer, checksum and count of its row.
type Compare = fn(&str, &[u8], Vec<u8>, u64, usize);

/// Every stored run has a row; `compare` holds its answer to that.
fn compare_stored(rows: [Row; 17], compare: Compare) {
    assert!(rows.iter().map(|row| row.0).eq(FILES.map(|file| file.0)));
    let names: BTreeSet<&str> = stored::runs().iter().map(|run| run.name).collect();
    assert_eq!(names, rows.iter().map(|row| row.0).collect());
    for (name, then, count) in rows {
        let file = stored::file(name);
        compare(name, &file, program_output(&file), then, count);
    }
}

/// The same of the named runs, as their answers were written by hand; a refused file is answered with its refusal.
fn compare_named(rows: [Row; 15], compare: Compare) {
    let runs = named_then();
    assert!(runs.iter().map(|run| run.name).eq(rows.map(|row| row.0)));
    for (run, (name, then, count)) in runs.into_iter().zip(rows) {
        let answer = run.answer.unwrap_or_else(|refusal| vec![refusal]);
        compare(name, &run.file, answer, then, count);
    }
}

/// How far behind a card could be up to version 0.4.0.
const BEHIND_THEN: u32 = 64;

/// The runs stored at versions 0.6.0 and 0.7.0 and the checksums of their files, which are as they were. Those up
/// to `mixed` are of 0.4.0, and all of these but `counts`, `full3` and `mixed` of 0.2.0. `past1` to
/// `past4` were `k11`, `k12`, `behind` and `inbox`.
const FILES: [(&str, u64); 17] = [
    ("past1", 0xE65B_7005_50C7_8E5F),
    ("past2", 0xF07C_3BE4_5331_A0A2),
    ("past3", 0xF3D5_93A2_95FD_27DF),
    ("past4", 0x5CEC_5F59_E713_82F1),
    ("outbox", 0x3A72_510A_F9A8_B691),
    ("held", 0xBFF5_F152_C510_EC59),
    ("counts", 0x72FD_15B0_4D6C_07FD),
    ("full1", 0xE861_7313_F2A3_705A),
    ("full2", 0x6779_3BD2_0D05_6BDF),
    ("guided", 0x5E31_5025_3A8B_0339),
    ("full3", 0x84CF_56CF_64D0_C4CE),
    ("mixed", 0x2CD5_48EE_3BD2_81CF),
    ("k11", 0x9D5C_D7BD_297D_B4F0),
    ("k12", 0xFE11_4C54_2126_6442),
    ("behind", 0x5354_38D7_4017_4124),
    ("inbox", 0xF1A9_9520_9081_B051),
    ("full4", 0xD395_E73F_D15D_6C18),
];

/// FNV-1a in 64 bits.
fn checksum(bytes: &[u8]) -> u64 {
    bytes.iter().fold(0xCBF2_9CE4_8422_2325, |sum, &byte| {
        (sum ^ byte as u64).wrapping_mul(0x100_0000_01B3)
    })
}

/// The start of a run, with the limit of then.
fn started(run: &Run) -> State {
    let mut state = State::start(run.placement.clone()).expect("an accepted placement");
    state.channel.most_behind = BEHIND_THEN;
    state
}

/// What a run was answered with the limit of then.
fn answered(run: &Run) -> Vec<u8> {
    before_held(run, answer_from(started(run), &run.steps))
}

/// An answer to a run as it was up to version 0.6.0.
fn before_held(run: &Run, answer: Vec<u8>) -> Vec<u8> {
    held_as_taken(found_as_zero(run, answer))
}

/// An answer to a run as it was up to version 0.7.0, where the report of an update had the value 0: of
/// each that is taken, where the task's last request that was taken is one to update. Only codes and
/// results are looked at.
fn found_as_zero(run: &Run, mut answer: Vec<u8>) -> Vec<u8> {
    let mut updates = vec![false; run.placement.home.len()];
    let values = 2 + run.steps.len();
    for (place, &(code, argument)) in run.steps.iter().enumerate() {
        if !taken(answer[2 + place]) {
            continue;
        }
        let task = argument[0] as usize;
        match code {
            1 | 2 => updates[task] = code == 2,
            10 if updates[task] => answer[values + 4 * place..][..4].fill(0),
            _ => {}
        }
    }
    answer
}

/// An answer as it was up to version 0.6.0, where a held message had the result of any taken step: each
/// 100 a 0. Only results are looked at, for a value may have a byte 100 too.
fn held_as_taken(mut answer: Vec<u8>) -> Vec<u8> {
    if let [low, high, rest @ ..] = &mut answer[..] {
        let steps = u16::from_le_bytes([*low, *high]) as usize;
        for result in rest.iter_mut().take(steps) {
            if *result == HELD {
                *result = DONE;
            }
        }
    }
    answer
}

/// What it has and reaches with the limit of then.
fn statistics(run: &Run) -> Statistics {
    let mut statistics = Statistics::default();
    statistics.add_steps(started(run), &run.steps);
    statistics
}

fn read(file: &[u8]) -> Run {
    Run::read(file).expect("an accepted file")
}

#[test]
fn files_are_as_they_were() {
    for (name, kept) in FILES {
        assert_eq!(checksum(&stored::file(name)), kept, "{name}");
    }
}
