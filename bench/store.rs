//! Three stores on the same guided files of 4,096 steps, in one run:
//!   ./build firmware && cargo run --release --offline --manifest-path bench/Cargo.toml
//!
//! - proved: the library, called through its Rust crate, so a call across languages for every step;
//! - plain: the model of tests/rust, ordinary Rust (Vec, VecDeque), not tuned;
//! - tuned: bench/tuned, portable safe Rust, flat, packed, tuned by hand as firmware ships it: no heap,
//!   one copy of the step, and a check of the whole state that looks at what the proved one looks at
//!   (RULES 8.6). Left out, though quicker still: code without branches where a step chooses, reading
//!   ahead, and a second copy of the step inside the loop of a whole run.
//!
//! The Rust sides are built for any processor of the machine's kind. Of a whole run the file is read and the answer
//! written too. A checked step begins with the check of the whole state, each side's own; an unchecked
//! one is `advance` of the library and `step_reached` of the others.
//!
//! Processor time, medians of rounds taken in turn. Every round begins from new states; outputs are
//! not cleared between rounds. In each round all sides must answer the same. Before that, the tuned
//! side is compared with the model on files of every kind (`agree`); its states made by hand are
//! tried by `cargo test`. Run files written from their tables are timed as well (`write`); and by the
//! proved and the tuned side loads (`load`), totals of logs (`total`), and the copies of a register on
//! all cards (`copies`).

mod agree;
mod clock;
mod copies;
mod load;
mod total;
mod write;

use std::hint::black_box;
use std::mem::size_of;

use clock::{median, timed};
use gondzselu::{Refusal, Taken};
use gondzselu_model::generate::{file_of, Kind};
use gondzselu_model::model::files::{answer_into, Run};
use gondzselu_model::model::tally::Tally;
use gondzselu_model::model::State;
use gondzselu_model::random::Random;

const FILES: usize = 8;
const ROUNDS: usize = 101;
const STEPS: usize = 4_096;

/// Of the proved, the plain and the tuned side.
type Sides<T> = [T; 3];

/// The first guided files of a seed that have the most steps.
fn files() -> Vec<Vec<u8>> {
    let guided = (0..).map(|item| file_of(Kind::Guided, &mut Random::new(1, item)));
    let longest = guided.filter(|file| u16::from_le_bytes([file[3], file[4]]) as usize == STEPS);
    longest.take(FILES).collect()
}

/// The whole run on each side.
fn whole(file: &[u8], outputs: &mut Sides<Vec<u8>>, tally: &mut Tally) -> Sides<f64> {
    let [proved, plain, tuned] = outputs;
    let sides = [
        timed(|| gondzselu::answer(black_box(file), proved).map_or_else(Refusal::number, |_| 0)),
        timed(|| answer_into(black_box(file), plain, tally)),
        timed(|| tuned::answer(black_box(file), tuned)),
    ];
    assert_eq!(sides.map(|(_, refusal)| refusal), [0; 3]);
    assert!(proved == plain && tuned == plain, "other answers");
    sides.map(|(time, _)| time)
}

/// All steps one by one on each side.
fn steps(file: &[u8], run: &Run, checked: bool) -> Sides<f64> {
    let proved = gondzselu::Store::start_from_file(file).expect("an accepted file");
    let plain = State::start(run.placement.clone()).expect("an accepted placement");
    let mut tuned = tuned::Store::unstarted();
    assert_eq!(tuned.start_from_file(file), 0);
    let sides = if checked {
        [
            played(run, proved, |store, code, argument| {
                numbers(store.step_bytes(code, argument))
            }),
            played(run, plain, State::step),
            played(run, tuned, tuned::Store::step),
        ]
    } else {
        [
            played(run, proved, |store, code, argument| {
                numbers(store.advance_bytes(code, argument))
            }),
            played(run, plain, State::step_reached),
            played(run, tuned, tuned::Store::step_reached),
        ]
    };
    let [proved, plain, tuned] = sides.map(|(_, answers)| answers);
    assert!(proved == plain && tuned == plain, "other answers");
    sides.map(|(time, _)| time)
}

/// The time of a run's steps from a state, and a sum of their answers.
fn played<S>(
    run: &Run,
    mut state: S,
    step: impl Fn(&mut S, u8, [u8; 8]) -> (u8, u32),
) -> (f64, u32) {
    timed(|| {
        let steps = run.steps.iter();
        steps
            .map(|&(code, argument)| step(&mut state, code, argument))
            .fold(0, sum)
    })
}

fn numbers(answer: Result<Taken, Refusal>) -> (u8, u32) {
    match answer {
        Ok(taken) => (taken.result(), taken.value),
        Err(refusal) => (refusal.number(), 0),
    }
}

fn sum(total: u32, (result, value): (u8, u32)) -> u32 {
    total
        .wrapping_mul(31)
        .wrapping_add(result as u32)
        .wrapping_add(value)
}

fn main() {
    let (compared, steps_compared) = agree::tuned_with_model();
    println!("tuned and plain agree: {compared} files, {steps_compared} steps");
    let (compared, calls) = write::tuned_with_model();
    println!("and on files to be written: {compared} tables, {calls} calls");
    let compared = total::tuned_with_proved();
    println!("tuned and proved agree on totals: {compared} logs");
    let compared = load::tuned_with_proved();
    println!("and on loads: {compared} calls");
    let compared = copies::tuned_with_proved();
    println!("and on copies: {compared} registers");
    println!("nanoseconds a step: proved, plain, tuned");
    println!("file  taken |      whole run       |    checked steps     |   unchecked steps");
    let mut ratios = [const { [const { Vec::new() }; 2] }; 3];
    let mut writes = [const { Vec::new() }; 3];
    for (number, file) in files().into_iter().enumerate() {
        let run = Run::read(&file).expect("an accepted file");
        let mut times = [const { [const { Vec::new() }; 3] }; 3];
        let mut outputs = [0; 3].map(|byte| vec![byte; 2 + 5 * STEPS]);
        let mut taken = 0;
        for _ in 0..ROUNDS {
            let mut tally = Tally::default();
            let round = [
                whole(&file, &mut outputs, &mut tally),
                steps(&file, &run, true),
                steps(&file, &run, false),
            ];
            taken = tally.taken;
            for (times, time) in writes.iter_mut().zip(write::written(&file)) {
                times.push(time);
            }
            for (times, time) in times.iter_mut().flatten().zip(round.into_iter().flatten()) {
                times.push(time / STEPS as f64);
            }
        }
        print!("{number:>4} {taken:>6}");
        for (sides, [to_plain, to_tuned]) in times.into_iter().zip(&mut ratios) {
            let [proved, plain, tuned] = sides.map(median);
            print!(" | {proved:>6.1} {plain:>6.1} {tuned:>6.1}");
            to_plain.push(proved / plain);
            to_tuned.push(proved / tuned);
        }
        println!();
    }
    let ratios = ratios.map(|ratios| ratios.map(median));
    for (side, name) in ["plain", "tuned"].into_iter().enumerate() {
        let [whole, checked, unchecked] = ratios.map(|ratios| ratios[side]);
        print!("median ratios proved/{name}: ");
        println!("whole runs {whole:.2}, checked steps {checked:.2}, unchecked {unchecked:.2}");
    }
    let [proved, plain, tuned] = writes.map(median);
    println!("a file of {STEPS} steps written: proved {proved:.0} ns, plain {plain:.0}, tuned {tuned:.0}");
    load::print();
    total::print();
    copies::print();
    let (proved, tuned) = (size_of::<gondzselu::Store>(), size_of::<tuned::Store>());
    println!("a store: proved {proved} bytes, tuned {tuned} bytes");
}
