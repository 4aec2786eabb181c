//! Totals of logs (RULES 16), as they stand and by card: the library and the tuned side on the same
//! random logs, timed in turn. Before that they are compared on short logs, good and spoiled.

use std::hint::black_box;

use gondzselu::Refusal;
use gondzselu_model::random::Random;

use crate::clock::{median, timed};
use crate::ROUNDS;

/// Entries of the logs timed: a run file has at most so many steps, a store so many requests.
const ENTRIES: [usize; 2] = [4_096, 65_535];
/// Calls in a round: one takes a few microseconds.
const CALLS: usize = 16;
const LOGS: u64 = 20_000;

/// A refusal, or 0, and a total.
type Total = (u8, u32);
type Proved = fn(&[u8], &[u32]) -> Result<u32, Refusal>;
type Tuned = fn(&[u8], &[u32]) -> Total;

/// By each reading, the proved side and the tuned one.
const READINGS: [(&str, Proved, Tuned); 2] = [
    ("as it stands", gondzselu::total, tuned::total),
    ("by card", gondzselu::total_by_card, tuned::total_by_card),
];

fn numbers(given: Result<u32, Refusal>) -> Total {
    given.map_or_else(|refusal| (refusal.number(), 0), |total| (0, total))
}

fn log(random: &mut Random, entries: usize) -> (Vec<u8>, Vec<u32>) {
    let cards = (0..entries).map(|_| random.byte(0, 7)).collect();
    let operands = (0..entries).map(|_| random.bits() as u32).collect();
    (cards, operands)
}

/// The number of logs compared; some of them have a card that is absent, or a list cut short.
pub fn tuned_with_proved() -> u64 {
    let mut seen = [0; 15];
    for item in 0..LOGS {
        let random = &mut Random::new(16, item);
        let entries = random.between(0, 40);
        let (mut cards, mut operands) = log(random, entries);
        if entries > 0 && random.percent(30) {
            cards[random.between(0, entries - 1)] = random.byte(0, 255);
        }
        if random.percent(30) {
            let short = random.between(0, entries);
            if random.percent(50) {
                cards.truncate(short);
            } else {
                operands.truncate(short);
            }
        }
        let given = READINGS.map(|(_, proved, tuned)| {
            let given = tuned(&cards, &operands);
            assert_eq!(numbers(proved(&cards, &operands)), given, "log {item}");
            given
        });
        assert_eq!(given[0], given[1], "log {item}");
        seen[usize::from(given[0].0)] += 1;
    }
    assert!([0, 3, 14].iter().all(|&refusal| seen[refusal] > 1_000));
    LOGS
}

/// The time of one call, for an entry; every call gives this total.
fn side(log: &(Vec<u8>, Vec<u32>), expected: Total, call: impl Fn(&[u8], &[u32]) -> Total) -> f64 {
    let (cards, operands) = log;
    let (time, wrong) = timed(|| {
        let totals = (0..CALLS).map(|_| call(black_box(cards), black_box(operands)));
        totals.filter(|&total| total != expected).count()
    });
    assert_eq!(wrong, 0, "another total");
    time / (CALLS * cards.len()) as f64
}

/// A line for each length of log and each reading.
pub fn print() {
    println!("nanoseconds an entry of a log, added up: proved, tuned");
    for entries in ENTRIES {
        let log = log(&mut Random::new(17, 0), entries);
        let mut times = [const { [const { Vec::new() }; 2] }; 2];
        for _ in 0..ROUNDS {
            for ((_, proved, tuned), times) in READINGS.into_iter().zip(&mut times) {
                let expected = tuned(&log.0, &log.1);
                assert_eq!(expected.0, 0);
                times[0].push(side(&log, expected, |cards, operands| {
                    numbers(proved(cards, operands))
                }));
                times[1].push(side(&log, expected, tuned));
            }
        }
        for ((name, _, _), times) in READINGS.into_iter().zip(times) {
            let [proved, tuned] = times.map(median);
            print!("{entries:>5} entries, {name:<12} | {proved:>6.3} {tuned:>6.3}");
            println!(" | ratio proved/tuned {:.2}", proved / tuned);
        }
    }
}
