//! What the kept cases have, and that the folder has them.

use std::collections::BTreeSet;

use super::*;
use crate::folder;
use crate::logs::Logs;
use crate::model::files::answer_file;
use crate::model::totals::total_by_card;
use crate::view::view;

fn file(name: &str) -> Vec<u8> {
    let mut cases = cases().into_iter();
    cases.find(|case| case.name == name).expect("a case").file
}

/// The lines of registers.
fn registers(name: &str) -> Vec<String> {
    let text = sums(&file(name));
    text.lines().skip(3).map(str::to_string).collect()
}

/// Results of the steps other than 0, by place.
fn not_done(name: &str) -> Vec<(usize, u8)> {
    let answer = answer_file(&file(name)).expect("an accepted file");
    let steps = (answer.len() - 2) / 5;
    let results = answer[2..2 + steps].iter().copied().enumerate();
    results.filter(|&(_, result)| result != 0).collect()
}

#[test]
fn the_stored_files_are_these() {
    let cases = folder::of_tree("crates/sums/cases");
    assert_eq!(folder::compare(&cases, &files()), Ok(()));
}

/// The crate's own example is `by_hand`.
#[test]
fn the_example_of_the_crate() {
    let read = |name| std::fs::read(folder::of_tree("crates/sums").join(name)).expect(name);
    assert_eq!(read("stdin"), file("by_hand"));
    assert_eq!(read("stdout"), sums(&file("by_hand")).into_bytes());
}

#[test]
fn refused_files_are_as_view_has_them() {
    let mut refused = Vec::new();
    for Case { name, file } in cases() {
        if let Err(refusal) = answer_file(&file) {
            assert_eq!(sums(&file), view(&file), "{name}");
            refused.push(refusal);
        }
    }
    assert_eq!(refused, [1, 1, 2, 3, 4]);
}

/// Worked out by hand.
#[test]
fn by_hand() {
    let text = "cards 3, registers 2, tasks 3, steps 34

                 card 0      card 1      card 2       total
register  0           3           0           4           7
register  1           0          10  4294967290           4
";
    assert_eq!(sums(&file("by_hand")), text);
    assert_eq!(not_done("by_hand"), [(16, 100)]);
}

#[test]
fn performed() {
    let lines = [
        "register  0           6           6",
        "register  1  1000000000  1000000000",
        "register  2           0           0",
    ];
    assert_eq!(registers("performed"), lines);
    assert_eq!(not_done("performed"), [(5, 21)]);
}

/// Of register 0: 5,000,000,000 less 4,294,967,296 is 705,032,704, and so on.
#[test]
fn several_cards() {
    let lines = [
        "register  0   705032704          17  4294967290   705032705           0  1410065420",
        "register  1  2147483648  1073741824           0  1073741829           0           5",
        "register  2           0         256  4294967295         255           0         510",
        "register  3           0           0           0           0           0           0",
    ];
    assert_eq!(registers("several_cards"), lines);
    assert_eq!(not_done("several_cards"), []);
}

/// The copies of the three are 0, 6 and 92.
#[test]
fn mixed_functions() {
    let lines = [
        "register  0         301        4020        4321",
        "register  1           0           0           0",
        "register  2          90           0          90",
    ];
    assert_eq!(registers("mixed_functions"), lines);
    assert_eq!(not_done("mixed_functions"), []);
    let run = Run::read(&file("mixed_functions")).expect("an accepted file");
    let (_, state) = Logs::of(&run);
    let copies = [(0, 0), (1, 1), (0, 2)].map(|(card, register)| state.copy(card, register));
    assert_eq!(copies, [0, 6, 92]);
}

#[test]
fn not_yet() {
    let lines = [
        "register  0           0        1000           0        1000",
        "register  1           0           0           0           0",
    ];
    assert_eq!(registers("not_yet"), lines);
    assert_eq!(not_done("not_yet"), [(32, 100)]);
    let run = Run::read(&file("not_yet")).expect("an accepted file");
    let (_, state) = Logs::of(&run);
    let copies = [0, 1, 2].map(|card| state.copy(card, 0));
    assert_eq!(copies, [1_003, 1_000, 1_000]);
    let channel = &state.channel;
    assert_eq!((channel.inbox[2].len(), channel.outbox[2].len()), (1, 1));
    assert_eq!((channel.made, &channel.taken[..]), (4, &[3, 1, 2][..]));
    assert!(channel.held[1].len() == 1 && channel.flight[4].is_some());
}

#[test]
fn held() {
    let lines = [
        "register  0          70           0           0          70",
        "register  1           6           0  4294967295           5",
    ];
    assert_eq!(registers("held"), lines);
    let wanted = [(13, 100), (14, 100), (15, 33), (37, 100), (38, 33)];
    assert_eq!(not_done("held"), wanted);
    let (logs, _) = Logs::of(&Run::read(&file("held")).expect("an accepted file"));
    assert_eq!(logs.logs[1].cards, [2, 0], "in order of arrival");
}

/// The longest file there is: every register has updates of several cards, every card in some register;
/// most totals come round, and some primaries have applied other functions too.
#[test]
fn full() {
    let case = cases().pop().expect("a case");
    assert_eq!((case.name, case.file.len()), ("full", 36_949));
    let (logs, _) = Logs::of(&Run::read(&case.file).expect("an accepted file"));
    let mut every = BTreeSet::new();
    let mut round = 0;
    for log in &logs.logs {
        let cards: BTreeSet<u8> = log.cards.iter().copied().collect();
        assert!(cards.len() > 1);
        every.extend(cards);
        let exact: u64 = log.operands.iter().map(|&operand| operand as u64).sum();
        round += (exact >> 32 > 0) as usize;
    }
    let others = logs.others.iter().filter(|&&others| others > 0).count();
    assert_eq!((every.len(), round, others), (8, 31, 15));
}

/// In every line the groups make the total, and each column is as wide as the head's.
#[test]
fn columns() {
    let mut lines = 0;
    for Case { name, file } in cases() {
        let Ok(run) = Run::read(&file) else {
            continue;
        };
        let text = sums(&file);
        let cards = run.placement.cards as usize;
        assert_eq!(
            text.lines().count(),
            3 + run.placement.registers.len(),
            "{name}"
        );
        assert_eq!(text.lines().nth(1), Some(""), "{name}");
        for line in text.lines().skip(2) {
            assert_eq!(line.len(), 11 + 12 * (cards + 1), "{name}");
        }
        for line in text.lines().skip(3) {
            let numbers = line[11..].split_whitespace();
            let numbers: Vec<u32> = numbers
                .map(|word| word.parse().expect("a number"))
                .collect();
            let (&total, groups) = numbers.split_last().expect("a total");
            let of: Vec<u8> = (0..cards as u8).collect();
            assert_eq!(total_by_card(&of, groups), (0, total), "{name}");
            lines += 1;
        }
    }
    assert_eq!(lines, 1 + 2 + 3 + 4 + 3 + 2 + 2 + 32);
}
