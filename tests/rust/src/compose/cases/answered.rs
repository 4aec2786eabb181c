//! Texts that are runs and have what was answered, each with its file.

use super::good::{small, small_text, Good};
use crate::named;
use crate::steps::*;
use crate::view::view;

pub fn cases() -> Vec<Good> {
    let mut cases = vec![answers(), held()];
    cases.extend(printed());
    cases
}

/// Numbers before some of the steps, answers behind some, with anything up to the end of the line.
fn answers() -> Good {
    let mut words = small_text(&[
        "0 dispatch card 0 taken",
        "report task 1 refused",
        "2 report task 2 taken, value 7",
        "report task 3 refused 21: the task is not ready for this step",
        "bytes 0b 00 00 00 00 00 00 00 00 refused 10: there is no such step",
        "request update task 0 register 0 set 5 taken taken 9 cards 3",
        "request update task 0 register 0 or 4294967295 refused refused",
    ]);
    words.extend(b"7 perform task 0 taken \0\xFF\xC3 ;#\n");
    words.extend(b"taken 4, refused 4\n");
    let steps = vec![
        dispatch(0),
        report(1),
        report(2),
        report(3),
        (11, [0; 8]),
        request_update(0, 0, 1, 5),
        request_update(0, 0, 4, u32::MAX),
        perform(0),
    ];
    ("answers", words, small(steps))
}

/// `held` behind any step, not only a step 8, with anything up to the end of the line: what was
/// answered is not looked at.
fn held() -> Good {
    let words = small_text(&[
        "0 take single task 0 held",
        "take single task 1 held, value 7",
        "2 take single task 2 held taken refused 33: the card has nothing to deliver",
        "report task 3 held",
        "bytes 08 00 00 00 00 00 00 00 00 held",
        "request update task 0 register 0 set 5 held 100",
        "take single task 4 taken held",
        "taken 7, refused 0",
    ]);
    let steps = vec![
        take_single(0),
        take_single(1),
        take_single(2),
        report(3),
        (8, [0; 8]),
        set(0, 0, 5),
        take_single(4),
    ];
    ("held", words, small(steps))
}

/// What `view` prints of K9: with other line ends, without its last newline, and with all left out
/// that may be.
fn printed() -> Vec<Good> {
    let mut runs = named::runs().into_iter();
    let file = runs.find(|run| run.name == "K9").expect("a named run").file;
    let words = view(&file);
    let other = words.replace('\n', "\r\n");
    let cut = words.trim_end().to_string();
    let without = words.lines().map(|line| {
        let ends = ["taken", "held", "refused"].map(|word| line.find(word));
        let end = ends.into_iter().flatten().min();
        let asked = &line[..end.unwrap_or(line.len())];
        asked.trim_start_matches([' ', '0', '1', '2', '3', '4', '5', '6', '7', '8', '9'])
    });
    let without = without.collect::<Vec<_>>().join("\n");
    vec![
        ("other_line_ends", other.into(), file.clone()),
        ("no_last_newline", cut.into(), file.clone()),
        ("left_out", without.into(), file),
    ]
}
