//! Run files for the tests, and their results.

use std::fs;
use std::path::Path;

use gondzselu::{answer, write, Function, Placement, Step, Steps, LONGEST_ANSWER, LONGEST_FILE};

/// The smallest file there is (RULES 13, K1).
pub const K1: [u8; 8] = [1, 1, 1, 0, 0, 0, 1, 0];

/// The bytes of a run file of the repository.
pub fn read(file: &str) -> Vec<u8> {
    let path = Path::new(env!("CARGO_MANIFEST_DIR")).join("..").join(file);
    fs::read(&path).unwrap_or_else(|why| panic!("{}: {why}", path.display()))
}

/// The result of each step, from the library.
pub fn results(file: &[u8]) -> Vec<u8> {
    let mut output = vec![0; LONGEST_ANSWER];
    let length = answer(file, &mut output).expect("an accepted file");
    output[2..2 + (length - 2) / 5].to_vec()
}

fn written(placement: Placement, steps: &[Step]) -> Vec<u8> {
    let mut table = Steps::<4096>::new();
    for &step in steps {
        table.push(step).expect("room for a step");
    }
    let mut file = vec![0; LONGEST_FILE];
    let length = write(placement, &table, &mut file).expect("a placement");
    file.truncate(length);
    file
}

/// K10 (RULES 13): card 1 delivers broadcast 1, then its reply to a read of task 0 is held at card 0.
pub fn k10() -> Vec<u8> {
    let (task, register, function) = (2, 0, Function::Set);
    let steps = [
        Step::RequestUpdate {
            task,
            register,
            function,
            operand: 7,
        },
        Step::SendUpdate { task },
        Step::Dispatch { card: 2 },
        Step::TakeBroadcast { card: 1 },
        Step::Deliver { card: 1 },
        Step::RequestRead {
            task: 0,
            register: 1,
        },
        Step::SendRead { task: 0, card: 1 },
        Step::Dispatch { card: 0 },
        Step::TakeSingle { task: 0 },
        Step::Deliver { card: 1 },
        Step::Dispatch { card: 1 },
        Step::TakeSingle { task: 0 },
        Step::Deliver { card: 0 },
        Step::Report { task: 0 },
        Step::TakeBroadcast { card: 0 },
        Step::Deliver { card: 0 },
        Step::Report { task: 0 },
        Step::Deliver { card: 0 },
        Step::Report { task: 0 },
    ];
    let placement = Placement {
        cards: 3,
        homes: &[0, 1, 2],
        copies: &[0b111, 0b010],
        primaries: &[0, 1],
    };
    written(placement, &steps)
}

/// As many cards, tasks and registers as there can be. Each task adds to a register that is on all
/// cards, and all cards take and deliver all of it: so each copy of 16 registers changes once.
pub fn widest() -> Vec<u8> {
    let homes: Vec<u8> = (0..16).map(|task| task % 8).collect();
    let copies: Vec<u8> = (0..32)
        .map(|register| if register < 16 { 255 } else { 1 })
        .collect();
    let mut steps = Vec::new();
    for task in 0..16 {
        let (register, card) = (task, task % 8);
        let (function, operand) = (Function::AddComesRound, u32::MAX - u32::from(task));
        steps.extend([
            Step::RequestUpdate {
                task,
                register,
                function,
                operand,
            },
            Step::SendUpdate { task },
            Step::Dispatch { card },
        ]);
    }
    for _ in 0..16 {
        steps.extend((0..8).map(|card| Step::TakeBroadcast { card }));
    }
    for card in 0..8 {
        steps.extend([Step::Deliver { card }; 16]);
    }
    steps.extend((0..16).map(|task| Step::Report { task }));
    let placement = Placement {
        cards: 8,
        homes: &homes,
        copies: &copies,
        primaries: &[0; 32],
    };
    written(placement, &steps)
}
