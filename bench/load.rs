//! Loads (RULES 17): the library and the tuned side on the same seeds and placements, timed in turn.
//! Before that they are compared on generated placements, good and spoiled.

use std::hint::black_box;

use gondzselu::Placement;
use gondzselu_model::generate::tables::tables;
use gondzselu_model::random::Random;
use tuned::Wanted;

use crate::clock::{median, timed};
use crate::{ROUNDS, STEPS};

/// Loads in a round: one takes some tens of microseconds.
const LOADS: usize = 8;
const PLACEMENTS: u64 = 2_000;

const K9: Placement<'_> = Placement {
    cards: 3,
    homes: &[0, 1, 2],
    copies: &[7, 2],
    primaries: &[0, 1],
};
const LARGEST: Placement<'_> = Placement {
    cards: 8,
    homes: &[0, 1, 2, 3, 4, 5, 6, 7, 0, 1, 2, 3, 4, 5, 6, 7],
    copies: &[255; 32],
    primaries: &[0; 32],
};

/// A refusal, or 0, and a length.
type Drawn = (u8, u32);

fn proved(seed: u32, place: Placement<'_>, steps: usize, output: &mut [u8]) -> Drawn {
    let drawn = gondzselu::load(seed, place, steps, output);
    drawn.map_or_else(|refusal| (refusal.number(), 0), |length| (0, length as u32))
}

fn tuned(seed: u32, place: Placement<'_>, steps: usize, output: &mut [u8]) -> Drawn {
    let wanted = Wanted {
        seed,
        cards: place.cards.into(),
        homes: place.homes,
        copies: place.copies,
        primaries: place.primaries,
        steps: steps as u32,
    };
    tuned::load(&wanted, output)
}

/// The number of calls compared. Tables for a writer serve as placements, good ones and spoiled, each
/// in an output that is a byte too short, just long enough, and longer.
pub fn tuned_with_proved() -> usize {
    let mut seen = [0; 6];
    for item in 0..PLACEMENTS {
        let random = &mut Random::new(17, item);
        let tables = tables(random);
        let place = Placement {
            cards: u8::try_from(tables.cards).unwrap_or(u8::MAX),
            homes: &tables.homes,
            copies: &tables.copies,
            primaries: &tables.primaries,
        };
        let (seed, steps) = (random.bits() as u32, tables.codes.len());
        let full = length(place, steps);
        for room in [full - 1, full, full + 7] {
            let [mut own, mut other] = [0; 2].map(|_| vec![0xA5; room]);
            let given = tuned(seed, place, steps, &mut own);
            let said = proved(seed, place, steps, &mut other);
            assert_eq!(said, given, "placement {item}");
            assert!(own == other, "placement {item}: other bytes");
            seen[usize::from(given.0)] += 1;
        }
    }
    assert!([0, 3, 4, 5].iter().all(|&refusal| seen[refusal] > 100));
    seen.iter().sum()
}

/// The bytes of a load.
fn length(place: Placement<'_>, steps: usize) -> usize {
    5 + place.homes.len() + 2 * place.copies.len() + 9 * steps
}

type Side = fn(u32, Placement<'_>, usize, &mut [u8]) -> Drawn;

/// The time of one load, for a step, and the last one's bytes. Every round has seeds of its own, so
/// that no processor learns the codes.
fn side(round: usize, place: Placement<'_>, load: Side) -> (f64, Vec<u8>) {
    let full = length(place, STEPS);
    let mut output = vec![0; full];
    let (time, wrong) = timed(|| {
        let drawn = (0..LOADS).map(|k| {
            let seed = black_box((LOADS * round + k) as u32);
            load(seed, black_box(place), STEPS, black_box(&mut output))
        });
        drawn.filter(|&drawn| drawn != (0, full as u32)).count()
    });
    assert_eq!(wrong, 0, "another length");
    (time / (LOADS * STEPS) as f64, output)
}

/// A line for each placement.
pub fn print() {
    println!("nanoseconds a step of a load, drawn: proved, tuned");
    for (name, place) in [("K9", K9), ("the largest", LARGEST)] {
        let mut times = [const { Vec::new() }; 2];
        for round in 0..ROUNDS {
            let sides = [proved, tuned].map(|load: Side| side(round, place, load));
            assert!(sides[0].1 == sides[1].1, "other bytes");
            for (times, (time, _)) in times.iter_mut().zip(sides) {
                times.push(time);
            }
        }
        let [proved, tuned] = times.map(median);
        print!("{STEPS:>5} steps, {name:<12} | {proved:>6.2} {tuned:>6.2}");
        println!(" | ratio proved/tuned {:.2}", proved / tuned);
    }
}
