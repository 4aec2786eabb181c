//! Refusals 3, 4 and 5, in this order; and what is lent.

use super::*;

fn refusal(change: impl Fn(&mut Load)) -> u8 {
    let mut load = example();
    change(&mut load);
    load.file().err().unwrap_or(0)
}

#[test]
fn sizes() {
    let wide = [9, 255, 256, 258, 1 << 31, u32::MAX].map(|cards| (cards, 3));
    for (cards, refused) in [(0, 3), (1, 4), (2, 0), (8, 0)].into_iter().chain(wide) {
        assert_eq!(refusal(|l| l.cards = cards), refused, "{cards} cards");
    }
    for (tasks, refused) in [(0, 3), (1, 0), (16, 0), (17, 3), (257, 3)] {
        let found = refusal(|l| l.homes.resize(tasks, 0));
        assert_eq!(found, refused, "{tasks} tasks");
    }
    for (registers, refused) in [(0, 3), (1, 0), (32, 0), (33, 3), (257, 3)] {
        let found = refusal(|l| {
            l.copies.resize(registers, 1);
            l.primaries.resize(registers, 0);
        });
        assert_eq!(found, refused, "{registers} registers");
    }
    let many = [4_097, 65_535, 65_536, 65_539, 1 << 31, u32::MAX].map(|steps| (steps, 3));
    for (steps, refused) in [(0, 0), (4_096, 0)].into_iter().chain(many) {
        assert_eq!(refusal(|l| l.steps = steps), refused, "{steps} steps");
    }
    assert_eq!(refusal(|l| l.primaries.push(0)), 3);
    assert_eq!(refusal(|l| l.primaries.truncate(1)), 3);
    assert_eq!(refusal(|l| l.copies.push(1)), 3);
}

/// 3 for whatever size before 4, and both before 5.
#[test]
fn order_of_refusals() {
    let bad: [fn(&mut Load); 5] = [
        |l| l.copies[1] = 0,
        |l| l.copies[0] = 7,
        |l| l.homes[1] = 2,
        |l| l.primaries[1] = 0,
        |l| l.primaries[0] = 200,
    ];
    let sizes: [fn(&mut Load); 5] = [
        |l| l.cards = 9,
        |l| l.homes.resize(17, 9),
        |l| l.primaries.push(9),
        |l| l.copies.push(0),
        |l| l.steps = 4_097,
    ];
    for (number, place) in bad.into_iter().enumerate() {
        assert_eq!(refusal(place), 4, "{number}");
        for spoil in sizes {
            let both = |load: &mut Load| {
                place(load);
                spoil(load);
            };
            assert_eq!(refusal(both), 3, "{number}");
        }
        let mut load = example();
        place(&mut load);
        assert_eq!(load.write_into(&mut []), (4, 0), "4 before 5");
        load.steps = u32::MAX;
        assert_eq!(load.write_into(&mut []), (3, 0), "3 before 5");
    }
}

#[test]
fn lent_output() {
    let file = example().file().expect("a good one");
    for length in [0, 1, 36, 37] {
        let mut output = vec![0xA5; length];
        assert_eq!(example().write_into(&mut output), (5, 0), "{length}");
        assert_eq!(output, vec![0xA5; length]);
    }
    for length in [38, 39, 300] {
        let mut output = vec![0xA5; length];
        assert_eq!(example().write_into(&mut output), (0, 38), "{length}");
        assert_eq!(output[..38], file);
        assert!(output[38..].iter().all(|&byte| byte == 0xA5));
    }
    let mut output = [0xA5; 100];
    for (cards, refusal) in [(0, 3), (1, 4)] {
        let load = Load { cards, ..example() };
        assert_eq!(load.write_into(&mut output), (refusal, 0));
        assert_eq!(output, [0xA5; 100]);
    }
}

/// `faults` says the same in other words.
#[test]
fn faults_are_the_refusals() {
    let mut refused = 0;
    for item in 0..2_000 {
        let load = loads::load(&mut Random::new(18, item));
        let faults = load.faults();
        let refusal = faults.first().map(|&(refusal, _)| refusal);
        assert_eq!(load.file().err(), refusal, "{item}");
        assert!(faults
            .iter()
            .all(|fault| reasons().any(|one| one == *fault)));
        refused += usize::from(refusal.is_some());
    }
    assert!(refused > 500 && reasons().count() == 13);
}
