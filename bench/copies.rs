//! The copies of one register on all cards (RULES 11.8), fetched in four ways, timed in turn: by
//! eight calls of the library, as before 0.11.0; by one call; and by hand from a table that lies
//! card after card, as before 0.11.0, or register after register. Each way is a call that is not
//! inlined. Before that the four are compared on stores of all sizes.

use std::array::from_fn;
use std::hint::black_box;

use gondzselu::{load, Placement, Store, LONGEST_FILE};
use gondzselu_model::generate::{file_of, KINDS};
use gondzselu_model::model::files::Run;
use gondzselu_model::random::Random;
use tuned::Rows;

use crate::clock::{median, timed};
use crate::{ROUNDS, STEPS};

/// Files of each kind whose stores are compared.
const FILES: u64 = 40;
/// Stores timed, and fetches of every register of each in a round: one takes a few nanoseconds.
const STORES: u64 = 8;
const FETCHES: usize = 32;
const REGISTERS: usize = 32;

/// By card.
type Copies = [u32; 8];

/// Stores after the steps of their run files, as each side has them.
struct Sides {
    proved: Vec<Store>,
    tuned: Vec<tuned::Store>,
    rows: Vec<Rows>,
}

impl Sides {
    fn of<'a>(files: impl IntoIterator<Item = &'a [u8]>) -> Sides {
        let (proved, tuned): (Vec<_>, Vec<_>) = files.into_iter().map(played).unzip();
        let rows = tuned.iter().map(Rows::of).collect();
        Sides {
            proved,
            tuned,
            rows,
        }
    }

    /// The time of a fetch in each way; all fetch the same.
    fn fetched(&self, registers: &[u8], times: usize) -> [f64; 4] {
        let ways = [
            fetched(&self.proved, registers, times, |store, register| {
                from_fn(|card| store.copy(card as u8, register))
            }),
            fetched(&self.proved, registers, times, Store::copies),
            fetched(&self.tuned, registers, times, tuned::Store::copies),
            fetched(&self.rows, registers, times, Rows::copies),
        ];
        assert!(ways.iter().all(|way| way.1 == ways[0].1), "other copies");
        ways.map(|(time, _)| time)
    }
}

/// What they answer on the way is compared elsewhere.
fn played(file: &[u8]) -> (Store, tuned::Store) {
    let mut proved = Store::start_from_file(file).expect("an accepted file");
    let mut tuned = tuned::Store::unstarted();
    assert_eq!(tuned.start_from_file(file), 0);
    for (code, argument) in Run::read(file).expect("an accepted file").steps {
        let _ = proved.advance_bytes(code, argument);
        tuned.step_reached(code, argument);
    }
    (proved, tuned)
}

/// The time of one fetch, and what the last ones gave.
fn fetched<S>(
    stores: &[S],
    registers: &[u8],
    times: usize,
    fetch: impl Fn(&S, u8) -> Copies,
) -> (f64, Vec<Copies>) {
    let mut copies = vec![[u32::MAX; 8]; stores.len() * registers.len()];
    let (time, ()) = timed(|| {
        for _ in 0..times {
            let places = black_box(&mut copies).chunks_mut(registers.len());
            for (store, places) in stores.iter().zip(places) {
                for (&register, place) in registers.iter().zip(places) {
                    *place = fetch(black_box(store), black_box(register));
                }
            }
        }
    });
    (time / (times * copies.len()) as f64, copies)
}

/// The number of registers compared, there and not.
pub fn tuned_with_proved() -> usize {
    let kinds = KINDS.into_iter();
    let items = kinds.flat_map(|kind| (0..FILES).map(move |item| (kind, item)));
    let files = items.map(|(kind, item)| file_of(kind, &mut Random::new(11, item)));
    let files: Vec<_> = files.filter(|file| Run::read(file).is_ok()).collect();
    let all: Vec<u8> = (0..=u8::MAX).collect();
    Sides::of(files.iter().map(Vec::as_slice)).fetched(&all, 1);
    files.len() * all.len()
}

/// A load on eight cards, with 32 registers that each lie on some of them.
fn file(seed: u64) -> Vec<u8> {
    let random = &mut Random::new(18, seed);
    let copies = [0; REGISTERS].map(|_| random.byte(1, 255));
    let primaries = copies.map(|holders| random.member(holders.into()) as u8);
    let place = Placement {
        cards: 8,
        homes: &[0, 1, 2, 3, 4, 5, 6, 7, 0, 1, 2, 3, 4, 5, 6, 7],
        copies: &copies,
        primaries: &primaries,
    };
    let mut file = vec![0; LONGEST_FILE];
    let length = load(seed as u32, place, STEPS, &mut file).expect("a load");
    file.truncate(length);
    file
}

/// A line for the four ways.
pub fn print() {
    let files: Vec<_> = (0..STORES).map(file).collect();
    let sides = Sides::of(files.iter().map(Vec::as_slice));
    // Each once, and none beside the one before.
    let registers: [u8; REGISTERS] = from_fn(|k| (13 * k % REGISTERS) as u8);
    let mut times = [const { Vec::new() }; 4];
    for _ in 0..ROUNDS {
        for (times, time) in times.iter_mut().zip(sides.fetched(&registers, FETCHES)) {
            times.push(time);
        }
    }
    let [eight, one, cards, rows] = times.map(median);
    print!("a register fetched from 8 cards: proved, eight calls {eight:.2} ns, one {one:.2}");
    println!("; tuned, card after card {cards:.2}, register after register {rows:.2}");
}
