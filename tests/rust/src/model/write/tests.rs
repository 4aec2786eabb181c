//! What is written, and every refusal in its order.

use super::*;
use crate::generate::{self, tables};
use crate::random::Random;

/// K9's, in the order of RULES 3.5.
fn k9() -> Tables {
    let mut arguments = vec![0; 128];
    arguments[..5].copy_from_slice(&[2, 0, 1, 0, 7]);
    arguments[64..69].copy_from_slice(&[0, 1, 1, 0, 9]);
    for (place, of) in [(1, 2), (2, 2), (12, 1), (13, 1), (14, 1), (15, 1)] {
        arguments[8 * place] = of;
    }
    Tables {
        cards: 3,
        homes: vec![0, 1, 2],
        copies: vec![7, 2],
        primaries: vec![0, 1],
        codes: vec![2, 5, 6, 7, 9, 1, 3, 10, 2, 5, 6, 8, 9, 7, 9, 9],
        arguments,
    }
}

/// The smallest: one card, one register, one task, no steps.
fn smallest() -> Tables {
    Tables {
        cards: 1,
        homes: vec![0],
        copies: vec![1],
        primaries: vec![0],
        ..Tables::default()
    }
}

fn steps(count: usize) -> Tables {
    Tables {
        codes: vec![255; count],
        arguments: vec![254; 8 * count],
        ..smallest()
    }
}

#[test]
fn k9_is_the_example() {
    let k9_run = crate::folder::of_tree("examples/k9.run");
    assert_eq!(k9().file(), Ok(std::fs::read(k9_run).expect("k9.run")));
    assert_eq!(smallest().file(), Ok(vec![1, 1, 1, 0, 0, 0, 1, 0]));
}

/// N has two bytes, low byte first; nothing of a step is examined.
#[test]
fn many_steps() {
    let file = steps(4_096).file().expect("accepted");
    assert_eq!(
        (file.len(), &file[3..8]),
        (8 + 9 * 4_096, &[0, 16, 0, 1, 0][..])
    );
    assert!(file[8..4_104].iter().all(|&code| code == 255));
    assert!(file[4_104..].iter().all(|&byte| byte == 254));
    let file = steps(257).file().expect("accepted");
    assert_eq!(file[3..5], [1, 1]);
}

#[test]
fn tables_come_back() {
    let mut good = 0;
    for item in 0..2_000 {
        let tables = tables::tables(&mut Random::new(5, item));
        let Ok(file) = tables.file() else { continue };
        let run = Run::read(&file).expect("the reader accepts it");
        assert_eq!(Tables::of(&run), tables, "{item}");
        good += 1;
    }
    assert!(good > 500);
}

#[test]
fn files_come_back() {
    let mut accepted = 0;
    for item in 0..400 {
        let (_, file) = generate::file(6, item);
        if let Ok(run) = Run::read(&file) {
            assert_eq!(Tables::of(&run).file(), Ok(file), "{item}");
            accepted += 1;
        }
    }
    assert!(accepted > 300);
}

fn refusal(change: impl Fn(&mut Tables)) -> u8 {
    let mut tables = k9();
    change(&mut tables);
    tables.file().err().unwrap_or(0)
}

#[test]
fn sizes() {
    for (cards, refused) in [(0, 3), (9, 3), (256, 3), (259, 3), (u32::MAX, 3), (8, 0)] {
        assert_eq!(refusal(|t| t.cards = cards), refused, "{cards} cards");
    }
    for (tasks, refused) in [(0, 3), (1, 0), (16, 0), (17, 3), (257, 3)] {
        assert_eq!(
            refusal(|t| t.homes.resize(tasks, 0)),
            refused,
            "{tasks} tasks"
        );
    }
    for (registers, refused) in [(0, 3), (1, 0), (32, 0), (33, 3), (257, 3)] {
        let change = |t: &mut Tables| {
            t.copies.resize(registers, 1);
            t.primaries.resize(registers, 0);
        };
        assert_eq!(refusal(change), refused, "{registers} registers");
    }
    for (count, refused) in [(0, 0), (4_096, 0), (4_097, 3), (65_536, 3), (65_537, 3)] {
        let found = steps(count).file().err().unwrap_or(0);
        assert_eq!(found, refused, "{count} steps");
    }
}

#[test]
fn parallel_tables() {
    assert_eq!(refusal(|t| t.primaries.push(0)), 3);
    assert_eq!(refusal(|t| t.primaries.truncate(1)), 3);
    assert_eq!(refusal(|t| t.copies.push(1)), 3);
    assert_eq!(refusal(|t| t.codes.push(1)), 3);
    assert_eq!(refusal(|t| t.codes.truncate(15)), 3);
    assert_eq!(refusal(|t| t.arguments.push(0)), 3);
    assert_eq!(refusal(|t| t.arguments.truncate(127)), 3);
    assert_eq!(refusal(|t| t.arguments.truncate(16)), 3, "one byte a step");
    assert_eq!(refusal(|t| t.codes.clear()), 3);
}

#[test]
fn placement() {
    assert_eq!(refusal(|t| t.copies[1] = 0), 4, "no copy");
    assert_eq!(refusal(|t| t.copies[0] = 15), 4, "a copy on an absent card");
    assert_eq!(refusal(|t| t.homes[2] = 3), 4, "a home on an absent card");
    assert_eq!(
        refusal(|t| t.primaries[1] = 0),
        4,
        "a primary without a copy"
    );
    assert_eq!(refusal(|t| t.primaries[0] = 3), 4, "an absent primary");
    assert_eq!(refusal(|t| t.primaries[0] = 255), 4, "a primary far away");
}

/// Every size before anything of the placement.
#[test]
fn three_before_four() {
    let bad = |t: &mut Tables| t.copies[0] = 0;
    assert_eq!(refusal(bad), 4);
    let sizes: [fn(&mut Tables); 5] = [
        |t| t.cards = 9,
        |t| t.homes.resize(17, 9),
        |t| t.primaries.push(9),
        |t| t.arguments.truncate(120),
        |t| {
            t.codes.resize(4_097, 0);
            t.arguments.resize(8 * 4_097, 0);
        },
    ];
    for (number, spoil) in sizes.into_iter().enumerate() {
        let both = |t: &mut Tables| {
            bad(t);
            spoil(t);
        };
        assert_eq!(refusal(both), 3, "{number}");
    }
}

#[test]
fn lent_output() {
    let tables = k9();
    let file = tables.file().expect("accepted");
    for length in [0, 1, 154, 155] {
        let mut output = vec![0xA5; length];
        assert_eq!(tables.write_into(&mut output), (5, 0), "{length}");
        assert_eq!(output, vec![0xA5; length]);
    }
    for length in [156, 157, 300] {
        let mut output = vec![0xA5; length];
        assert_eq!(tables.write_into(&mut output), (0, 156), "{length}");
        assert_eq!(output[..156], file);
        assert!(output[156..].iter().all(|&byte| byte == 0xA5));
    }
    let mut output = [0xA5; 155];
    let bad = Tables { cards: 2, ..k9() };
    assert_eq!(bad.write_into(&mut output), (4, 0), "4 before 5");
    let bad = Tables { cards: 0, ..k9() };
    assert_eq!(bad.write_into(&mut []), (3, 0), "3 before 5");
    assert_eq!(output, [0xA5; 155]);
}

/// `FAULTS` says the same in other words.
#[test]
fn faults_are_the_refusals() {
    for item in 0..2_000 {
        let tables = tables::tables(&mut Random::new(7, item));
        let faults = tables.faults();
        let refusal = faults.first().map(|&fault| FAULTS[fault].0);
        assert_eq!(tables.file().err(), refusal, "{item}");
    }
}
