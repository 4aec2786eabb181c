//! The runs stored in `crates/runs/data`: K11 and K12, a run for each queue at its limit, counters at
//! the top, runs made when a card could be further behind, and files of 4,096 steps. The answers stored
//! with them are this model's. `earlier` holds them to the answers of earlier versions.

#[cfg(test)]
mod earlier;
#[cfg(test)]
mod tests;

use crate::folder::File;
use crate::generate::{self, Kind};
use crate::model::channel::{BEHIND, UNDELIVERED};
use crate::model::files::{program_output, RawStep, Run};
use crate::model::placement::Placement;
use crate::named;
use crate::random::Random;
use crate::steps::*;

/// A file that an earlier version made, as it was.
macro_rules! kept {
    ($name:literal) => {
        include_bytes!(concat!("../../../crates/runs/data/", $name, ".run")).to_vec()
    };
}

pub struct Stored {
    pub name: &'static str,
    pub file: Vec<u8>,
}

const SEED: u64 = 518;

pub fn runs() -> Vec<Stored> {
    let of = |name, file| Stored { name, file };
    vec![
        of("k11", named_file("K11")),
        of("k12", named_file("K12")),
        of("behind", behind()),
        of("outbox", outbox()),
        of("inbox", inbox()),
        of("held", held()),
        of("counts", counts()),
        of("past1", kept!("past1")),
        of("past2", kept!("past2")),
        of("past3", kept!("past3")),
        of("past4", kept!("past4")),
        of("full1", kept!("full1")),
        of("full2", kept!("full2")),
        of("guided", kept!("guided")),
        of("full3", kept!("full3")),
        of("mixed", kept!("mixed")),
        of("full4", full()),
    ]
}

/// The run file of this name.
pub fn file(name: &str) -> Vec<u8> {
    let mut runs = runs().into_iter();
    let run = runs.find(|run| run.name == name);
    run.expect("a stored run").file
}

/// The files of the folder: each run file and what the program writes for it.
pub fn files() -> Vec<File> {
    let pair = |run: Stored| {
        [
            (format!("{}.answer", run.name), program_output(&run.file)),
            (format!("{}.run", run.name), run.file),
        ]
    };
    runs().into_iter().flat_map(pair).collect()
}

fn named_file(name: &str) -> Vec<u8> {
    let runs = named::runs().into_iter();
    let mut found = runs.filter(|run| run.name == name);
    found.next().expect("a named run").file
}

/// A generated file with every limit.
fn full() -> Vec<u8> {
    generate::file_of(Kind::Full, &mut Random::new(SEED, 3))
}

/// A card's step so many times, and once more, when there is nothing left for it.
fn all_and_one(code: u8, card: u8, count: usize) -> Vec<RawStep> {
    vec![simple(code, card); count + 1]
}

/// Two cards and sixteen tasks on card 0; register 0 on both cards, register 1 on card 1.
fn sixteen_tasks(steps: Vec<RawStep>) -> Vec<u8> {
    let placement = Placement::new(2, &[0; 16], &[(0b11, 0), (0b10, 1)]);
    Run { placement, steps }.write()
}

/// Task 0's update of a register on both cards; card 0 takes and delivers the broadcast.
fn shared(request: RawStep) -> [RawStep; 6] {
    [
        request,
        send_update(0),
        dispatch(0),
        take_broadcast(0),
        deliver(0),
        report(0),
    ]
}

fn broadcast(value: u32) -> [RawStep; 6] {
    shared(set(0, 0, value))
}

/// Task 0's update of a register on card 1 alone: a single message, and its reply.
fn elsewhere(request: RawStep) -> [RawStep; 9] {
    [
        request,
        send_update(0),
        dispatch(0),
        take_single(0),
        deliver(1),
        dispatch(1),
        take_single(0),
        deliver(0),
        report(0),
    ]
}

fn single(value: u32) -> [RawStep; 9] {
    elsewhere(set(0, 1, value))
}

/// Every task reads register 1, and its message is taken where it is sent.
fn reads() -> Vec<RawStep> {
    let read = |task| {
        [
            request_read(task, 1),
            send_read(task, 1),
            dispatch(0),
            take_single(task),
        ]
    };
    (0..16).flat_map(read).collect()
}

/// The sixteen replies that wait in the outbox of card 1 are sent, delivered and reported.
fn replies() -> Vec<RawStep> {
    let mut steps = all_and_one(6, 1, 16);
    steps.extend((0..16).map(take_single));
    steps.extend(all_and_one(9, 0, 16));
    steps.extend((0..16).map(report));
    steps
}

/// K11, then a card behind takes a broadcast, and the one that was refused passes; the next is
/// refused again.
fn behind() -> Vec<u8> {
    let mut run = Run::read(&named_file("K11")).expect("an accepted file");
    run.steps.extend([take_broadcast(1), dispatch(0)]);
    run.steps.extend([take_broadcast(0), deliver(0), report(0)]);
    let more = [set(0, 0, BEHIND + 2), send_update(0), dispatch(0)];
    run.steps.extend(more);
    run.write()
}

/// An outbox of 16: every task sends an update before card 0 dispatches. The last one is read.
fn outbox() -> Vec<u8> {
    let send = |task: u8| [set(task, 0, task as u32 + 1), send_update(task)];
    let mut steps: Vec<_> = (0..16).flat_map(send).collect();
    steps.extend(all_and_one(6, 0, 16));
    for card in [0, 1] {
        steps.extend(all_and_one(7, card, 16));
        steps.extend(all_and_one(9, card, 16));
    }
    steps.extend((0..16).map(report));
    steps.extend([request_read(0, 0), perform(0), report(0)]);
    sixteen_tasks(steps)
}

/// An inbox of 48: card 1 takes 32 broadcasts as they come, and 16 reads, before it delivers; then
/// an outbox of 16 replies.
fn inbox() -> Vec<u8> {
    let mut steps = single(9).to_vec();
    for value in 1..=UNDELIVERED as u32 {
        steps.extend(broadcast(value));
        steps.push(take_broadcast(1));
    }
    steps.push(take_broadcast(1));
    steps.extend(reads());
    steps.extend(all_and_one(9, 1, 48));
    steps.extend(replies());
    sixteen_tasks(steps)
}

/// 16 messages held: card 1 takes no broadcast before the reads; then one take lets them all join.
fn held() -> Vec<u8> {
    let mut steps = single(9).to_vec();
    steps.extend(broadcast(7));
    steps.extend(reads());
    steps.extend([deliver(1), take_broadcast(1)]);
    steps.extend(all_and_one(9, 1, 17));
    steps.extend(replies());
    sixteen_tasks(steps)
}

/// What `counts` adds to 4,294,967,294, one after the other; each sum is read on every card with a copy.
const ADDED: [u32; 4] = [1, 1, u32::MAX, 2];

/// Functions 2 and 5 past the top: of a register on both cards, of one on card 1, of one on card 0. Then
/// functions that there are not.
fn counts() -> Vec<u8> {
    let placement = Placement::new(2, &[0, 1], &[(0b11, 0), (0b10, 1), (0b01, 0)]);
    let update = |request: RawStep| {
        let (_, [_, register, ..]) = request;
        match register {
            0 => [&shared(request)[..], &[take_broadcast(1), deliver(1)]].concat(),
            1 => elsewhere(request).to_vec(),
            _ => vec![request, perform(0), report(0)],
        }
    };
    let read = |task, register| [request_read(task, register), perform(task), report(task)];
    let mut steps = Vec::new();
    for (register, homes) in [(0, &[0, 1][..]), (1, &[1]), (2, &[0])] {
        for function in [2, 5] {
            steps.extend(update(set(0, register, u32::MAX - 1)));
            for operand in ADDED {
                steps.extend(update(request_update(0, register, function, operand)));
                steps.extend(homes.iter().flat_map(|&task| read(task, register)));
            }
        }
    }
    steps.extend([0, 6].map(|function| request_update(0, 0, function, 1)));
    Run { placement, steps }.write()
}
