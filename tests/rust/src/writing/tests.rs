//! Generated tables reach what they must, and each writer with one thing wrong is noticed.

use super::*;
use crate::statistics::{none_missing, FILES};

/// Compares a writer on so many tables.
fn run(writer: Writer) -> Result<Compared, String> {
    let mut compared = Compared::default();
    for item in 0..FILES {
        compare(&mut Random::new(1, item), &mut compared, writer)?;
    }
    Ok(compared)
}

#[test]
fn generated_tables_reach_everything() {
    let compared = run(&|tables, output| tables.write_into(output)).expect("the model's own");
    assert_eq!(none_missing(compared.missing()), Ok(()));
    let taken: [Taken; 7] = [
        ("calls with 5", |c| c.calls.retain(|&n, _| n != 5)),
        ("3 alone for more than 8 cards", |c| c.alone[1] = 0),
        ("4 alone for an absent primary", |c| c.alone[13] = 0),
        ("3 where 4 would come too", |c| c.both = 0),
        ("files written, steps 4096", |c| {
            c.sizes.retain(|&size, _| size != ("steps", 4_096))
        }),
        ("outputs longer by 0", |c| {
            c.room.retain(|&room, _| room != 0)
        }),
        ("outputs far longer", |c| c.room.retain(|&room, _| room < 4)),
    ];
    for (name, take) in taken {
        let mut less = compared.clone();
        take(&mut less);
        assert_eq!(less.missing(), [name]);
    }
}

/// The name of a thing, and how it is taken away.
type Taken = (&'static str, fn(&mut Compared));

/// What a writer does that takes other tables than it is given.
fn changed(tables: &Tables, output: &mut [u8], change: fn(&mut Tables)) -> (u8, u32) {
    let mut tables = tables.clone();
    change(&mut tables);
    tables.write_into(output)
}

/// A writer with one thing wrong.
type Wrong = (&'static str, fn(&Tables, &mut [u8]) -> (u8, u32));

const WRONG: [Wrong; 15] = [
    ("cards cut to a byte", |t, o| {
        changed(t, o, |t| t.cards &= 255)
    }),
    ("nine cards", |t, o| {
        changed(t, o, |t| t.cards = t.cards.min(8))
    }),
    ("tasks cut to a byte", |t, o| {
        changed(t, o, |t| t.homes.truncate(t.homes.len() % 256))
    }),
    ("registers cut to a byte", |t, o| {
        changed(t, o, |t| {
            t.copies.truncate(t.copies.len() % 256);
            t.primaries.truncate(t.primaries.len() % 256);
        })
    }),
    ("steps cut to two bytes", |t, o| {
        changed(t, o, |t| {
            t.codes.truncate(t.codes.len() % 65_536);
            t.arguments.truncate(t.arguments.len() % (8 * 65_536));
        })
    }),
    ("any primaries", |t, o| {
        changed(t, o, |t| t.primaries.resize(t.copies.len(), 0))
    }),
    ("any arguments", |t, o| {
        changed(t, o, |t| t.arguments.resize(8 * t.codes.len(), 0))
    }),
    ("known codes", |t, o| {
        changed(t, o, |t| {
            t.codes.iter_mut().for_each(|code| *code = (*code).min(10))
        })
    }),
    ("4 before 3", |t, o| match t.misplaced() {
        true => (4, 0),
        false => t.write_into(o),
    }),
    ("5 before 4", |t, o| match t.file() {
        Err(4) if o.len() < 5 + t.homes.len() + 2 * t.copies.len() + 9 * t.codes.len() => (5, 0),
        _ => t.write_into(o),
    }),
    ("written where it is too short", |t, o| {
        if let (Ok(file), length) = (t.file(), o.len()) {
            o.copy_from_slice(&[&file[..], &o[file.len().min(length)..]].concat()[..length]);
        }
        t.write_into(o)
    }),
    ("a byte more asked for", |t, o| match t.file() {
        Ok(file) if o.len() == file.len() => (5, 0),
        _ => t.write_into(o),
    }),
    ("a byte past the file", |t, o| {
        let answer = t.write_into(o);
        if let (0, Some(past)) = (answer.0, o.get_mut(answer.1 as usize)) {
            *past = 0;
        }
        answer
    }),
    ("a length where refused", |t, o| match t.write_into(o) {
        (5, _) => (5, 1),
        answer => answer,
    }),
    ("4,095 steps", |t, o| match t.codes.len() {
        4_096 => (3, 0),
        _ => t.write_into(o),
    }),
];

#[test]
fn each_wrong_writer_is_noticed() {
    for (name, writer) in WRONG {
        assert!(run(&writer).is_err(), "{name}");
    }
}
