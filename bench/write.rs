//! Run files written from their tables by the three sides. Before it is timed, the tuned side is
//! compared with the model on generated tables, good and spoiled, and outputs of many lengths.

use std::hint::black_box;

use gondzselu::{Placement, Refusal};
use gondzselu_model::model::files::Run;
use gondzselu_model::model::write::Tables;
use gondzselu_model::random::Random;
use gondzselu_model::writing::{compare, Compared};

use crate::clock::timed;
use crate::Sides;

/// Writes in a round: one takes a microsecond or two.
const WRITES: usize = 64;
const TABLES: u64 = 2_000;

/// The number of tables compared, and of calls.
pub fn tuned_with_model() -> (usize, usize) {
    let mut compared = Compared::default();
    for item in 0..TABLES {
        compare(&mut Random::new(9, item), &mut compared, &tuned)
            .unwrap_or_else(|said| panic!("table {item}: {said}"));
    }
    assert_eq!(compared.missing(), [""; 0]);
    (compared.tables, compared.calls.values().sum())
}

fn tuned(tables: &Tables, output: &mut [u8]) -> (u8, u32) {
    let lent = tuned::Tables {
        cards: tables.cards,
        homes: &tables.homes,
        copies: &tables.copies,
        primaries: &tables.primaries,
        codes: &tables.codes,
        arguments: &tables.arguments,
    };
    tuned::write(&lent, output)
}

fn proved(tables: &Tables, output: &mut [u8]) -> (u8, u32) {
    let placement = Placement {
        cards: tables.cards as u8,
        homes: &tables.homes,
        copies: &tables.copies,
        primaries: &tables.primaries,
    };
    let written = gondzselu::write_bytes(placement, &tables.codes, &tables.arguments, output);
    written.map_or_else(
        |refusal: Refusal| (refusal.number(), 0),
        |length| (0, length as u32),
    )
}

/// The time of one write on each side; all write the file again.
pub fn written(file: &[u8]) -> Sides<f64> {
    let tables = Tables::of(&Run::read(file).expect("an accepted file"));
    let side = |write: fn(&Tables, &mut [u8]) -> (u8, u32)| {
        let mut output = vec![0; file.len()];
        let (time, wrong) = timed(|| {
            let answers = (0..WRITES).map(|_| write(black_box(&tables), black_box(&mut output)));
            answers
                .filter(|&answer| answer != (0, file.len() as u32))
                .count()
        });
        assert!(wrong == 0 && output == file, "another file");
        time / WRITES as f64
    };
    [
        side(proved),
        side(|tables, output| tables.write_into(output)),
        side(tuned),
    ]
}
