//! A writer of run files against the model's (`model::write`), on generated tables and outputs of
//! many lengths, and what those must reach.

#[cfg(test)]
mod tests;

use std::collections::BTreeMap;
use std::fmt;

use crate::generate::tables;
use crate::model::write::{Tables, FAULTS};
use crate::random::Random;

/// Writes the file of tables into an output: the refusal and the length.
pub type Writer<'a> = &'a dyn Fn(&Tables, &mut [u8]) -> (u8, u32);

/// Bytes before and after the lent output that nobody may write.
const FENCE: usize = 32;

/// What was compared.
#[derive(Clone, Debug, Default)]
pub struct Compared {
    pub tables: usize,
    pub written: usize,
    /// Tables with a single fault, by its number in `FAULTS`.
    pub alone: [usize; FAULTS.len()],
    /// Tables refused with 3 whose placement has a fault of 4.
    pub both: usize,
    /// Tables written, by each of their sizes.
    pub sizes: BTreeMap<(&'static str, usize), usize>,
    /// Calls by refusal.
    pub calls: BTreeMap<u8, usize>,
    /// Calls by the output's length less the file's, of accepted tables.
    pub room: BTreeMap<isize, usize>,
}

/// Sizes of files that must be written.
const SIZES: [(&str, &[usize]); 4] = [
    ("cards", &[1, 8]),
    ("registers", &[1, 32]),
    ("tasks", &[1, 16]),
    ("steps", &[0, 1, 255, 256, 257, 4_095, 4_096]),
];

impl Compared {
    fn add(&mut self, tables: &Tables) {
        self.tables += 1;
        match (tables.file(), &tables.faults()[..]) {
            (Ok(_), _) => {
                self.written += 1;
                let Tables {
                    homes,
                    copies,
                    codes,
                    ..
                } = tables;
                let lengths = [copies.len(), homes.len(), codes.len()];
                let sizes = [tables.cards as usize].into_iter().chain(lengths);
                for ((name, _), size) in SIZES.into_iter().zip(sizes) {
                    *self.sizes.entry((name, size)).or_default() += 1;
                }
            }
            (Err(3), _) if tables.misplaced() => self.both += 1,
            (Err(_), &[fault]) => self.alone[fault] += 1,
            _ => {}
        }
    }

    /// What was never reached.
    pub fn missing(&self) -> Vec<String> {
        let mut missing = Vec::new();
        let mut need = |name: String, reached: bool| {
            if !reached {
                missing.push(name);
            }
        };
        for refusal in [0, 3, 4, 5] {
            let reached = self.calls.contains_key(&refusal);
            need(format!("calls with {refusal}"), reached);
        }
        for ((refusal, reason, _), count) in FAULTS.iter().zip(self.alone) {
            need(format!("{refusal} alone for {reason}"), count > 0);
        }
        need("3 where 4 would come too".into(), self.both > 0);
        for (name, sizes) in SIZES {
            for &size in sizes {
                let reached = self.sizes.contains_key(&(name, size));
                need(format!("files written, {name} {size}"), reached);
            }
        }
        for room in -2..=3 {
            let reached = self.room.contains_key(&room);
            need(format!("outputs longer by {room}"), reached);
        }
        let far = self.room.range(4..).next();
        need("outputs far longer".into(), far.is_some());
        missing
    }
}

impl fmt::Display for Compared {
    fn fmt(&self, f: &mut fmt::Formatter) -> fmt::Result {
        let Compared {
            tables, written, ..
        } = self;
        let calls: usize = self.calls.values().sum();
        let results = self.calls.iter();
        let results = results.map(|(refusal, count)| format!("{refusal}: {count}"));
        let results = results.collect::<Vec<_>>().join(", ");
        write!(
            f,
            "tables {tables}, written {written}; calls {calls}, by refusal  {results}"
        )
    }
}

/// Compares a writer on the tables of one item of a seed; gives the file, if there is one.
pub fn compare(
    random: &mut Random,
    compared: &mut Compared,
    writer: Writer,
) -> Result<Option<Vec<u8>>, String> {
    let tables = tables::tables(random);
    let file = tables.file().ok();
    // As long as the sizes ask for (RULES 3.2), refused ones too.
    let length = 5 + tables.homes.len() + 2 * tables.copies.len() + 9 * tables.codes.len();
    let near = length - 2..=length + 3;
    let far = [100, 40_000].map(|more| length + random.between(4, more));
    for lent in near.chain(far).chain([0]) {
        let wanted = |output: &mut [u8]| tables.write_into(output);
        let refusal = compare_lent(lent, random, |output| writer(&tables, output), wanted)
            .map_err(|words| format!("{}: {lent} bytes lent: {words}", told(&tables)))?;
        *compared.calls.entry(refusal).or_default() += 1;
        if let Some(file) = &file {
            let room = lent as isize - file.len() as isize;
            *compared.room.entry(room).or_default() += 1;
        }
    }
    compared.add(&tables);
    Ok(file)
}

/// The sizes of tables, and why they are refused.
fn told(tables: &Tables) -> String {
    let Tables {
        cards,
        homes,
        copies,
        primaries,
        codes,
        arguments,
    } = tables;
    let lengths = [homes, copies, primaries, codes, arguments].map(Vec::len);
    let faults = tables.faults();
    let faults: Vec<&str> = faults.iter().map(|&fault| FAULTS[fault].1).collect();
    format!("{cards} cards, tables of {lengths:?} bytes, {faults:?}")
}

/// What a writer answers, and the whole page about an output of so many bytes: the file, and all else
/// as it was.
pub fn compare_lent(
    lent: usize,
    random: &mut Random,
    writer: impl FnOnce(&mut [u8]) -> (u8, u32),
    model: impl FnOnce(&mut [u8]) -> (u8, u32),
) -> Result<u8, String> {
    let words = (FENCE + lent + FENCE).div_ceil(8);
    let mut found: Vec<u8> = (0..words)
        .flat_map(|_| random.bits().to_le_bytes())
        .collect();
    let mut wanted = found.clone();
    let lent = FENCE..FENCE + lent;
    let answer = writer(&mut found[lent.clone()]);
    let expected = model(&mut wanted[lent]);
    if answer != expected {
        return Err(format!("{answer:?}, not {expected:?}"));
    }
    match (0..wanted.len()).find(|&at| found[at] != wanted[at]) {
        None => Ok(expected.0),
        Some(at) => {
            let (place, found, wanted) = (at as isize - FENCE as isize, found[at], wanted[at]);
            Err(format!("byte {place}: {found}, not {wanted}"))
        }
    }
}
