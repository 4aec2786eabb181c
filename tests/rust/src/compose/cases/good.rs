//! Texts that are runs, each with its file.

use super::{answered, more, padded, text, with, PLAIN};
use crate::model::files::{RawStep, Run};
use crate::model::placement::Placement;
use crate::steps::*;

pub type Good = (&'static str, Vec<u8>, Vec<u8>);

/// The run of the plain text, with other steps.
fn plain(steps: Vec<RawStep>) -> Vec<u8> {
    let placement = Placement::new(2, &[0, 1], &[(0b11, 0), (0b10, 1)]);
    Run { placement, steps }.write()
}

/// One card, task and register, with these steps.
pub fn small(steps: Vec<RawStep>) -> Vec<u8> {
    let placement = Placement::new(1, &[0], &[(1, 0)]);
    Run { placement, steps }.write()
}

/// The lines of that placement.
const SMALL: [&str; 3] = [
    "cards 1",
    "task 0 home card 0",
    "register 0 primary card 0 copies on 0",
];

pub fn small_text(steps: &[&str]) -> Vec<u8> {
    text([&SMALL, steps].concat())
}

pub fn cases() -> Vec<Good> {
    let two = || plain(vec![dispatch(0), report(1)]);
    let mut cases = vec![
        ("plain", text(PLAIN), two()),
        by_hand(),
        every_step(),
        ("smallest", text(SMALL), small(vec![])),
        largest(),
        (
            "most_steps",
            small_text(&["report task 0"; 4_096]),
            small(vec![report(0); 4_096]),
        ),
        blanks(),
        (
            "sizes_told",
            with(1, "cards 2, registers 2, tasks 2, steps 2"),
            two(),
        ),
        (
            "counts_not_looked_at",
            with(8, "taken 4294967295, refused 0"),
            two(),
        ),
        (
            "empty_lines_after_counts",
            more(8, &["taken 1 refused 1", "", " ,", "\r"]),
            two(),
        ),
        holders(),
        largest_numbers(),
        leading_zeros(),
        hex(),
        longest_lines(),
    ];
    cases.extend(answered::cases());
    cases
}

/// The example of the page.
fn by_hand() -> Good {
    let words = "cards 2

task 0 home card 0
task 1 home card 1
register 0 primary card 0 copies on 0 1

request update task 0 register 0 add, stays at the top 5
send update task 0
dispatch card 0
take broadcast card 1
deliver card 1
bytes 0b 00 00 00 00 00 00 00 00
";
    let run = Run {
        placement: Placement::new(2, &[0, 1], &[(0b11, 0)]),
        steps: vec![
            request_update(0, 0, 2, 5),
            send_update(0),
            dispatch(0),
            take_broadcast(1),
            deliver(1),
            (11, [0; 8]),
        ],
    };
    ("by_hand", words.into(), run.write())
}

/// Each step and each function, no two numbers of a line alike.
fn every_step() -> Good {
    let words = small_text(&[
        "request read task 1 register 2",
        "request update task 3 register 4 set 5",
        "request update task 6 register 7 add stays at the top 8",
        "request update task 9 register 10 larger 11",
        "request update task 12 register 13 or 14",
        "request update task 15 register 16 add comes round 305419896",
        "perform task 17",
        "send read task 18 to card 19",
        "send update task 20",
        "dispatch card 21",
        "take broadcast card 22",
        "take single task 23",
        "deliver card 24",
        "report task 25",
        "bytes 01 23 45 67 89 ab cd ef 0f",
    ]);
    let steps = vec![
        request_read(1, 2),
        request_update(3, 4, 1, 5),
        request_update(6, 7, 2, 8),
        request_update(9, 10, 3, 11),
        request_update(12, 13, 4, 14),
        (2, [15, 16, 5, 0, 0x78, 0x56, 0x34, 0x12]),
        perform(17),
        send_read(18, 19),
        send_update(20),
        dispatch(21),
        take_broadcast(22),
        take_single(23),
        deliver(24),
        report(25),
        (0x01, [0x23, 0x45, 0x67, 0x89, 0xAB, 0xCD, 0xEF, 0x0F]),
    ];
    ("every_step", words, small(steps))
}

/// Every size but the steps at its most, told too.
fn largest() -> Good {
    let tasks = (0..16).map(|task| format!("task {task} home card {}", task % 8));
    let registers = (0..32).map(|register| {
        let copies = ["0 1 2 3 4 5 6 7", "7", "0 7", "6 7"][register % 4];
        format!("register {register} primary card 7 copies on {copies}")
    });
    let sizes = "cards 8 registers 32 tasks 16 steps 1".to_string();
    let lines = [sizes].into_iter().chain(tasks).chain(registers);
    let lines: Vec<String> = lines.chain(["report task 15".into()]).collect();
    let homes: Vec<u8> = (0..16).map(|task| task % 8).collect();
    let places: Vec<(u8, u8)> = (0..32).map(|x| ([255, 128, 129, 192][x % 4], 7)).collect();
    let run = Run {
        placement: Placement::new(8, &homes, &places),
        steps: vec![report(15)],
    };
    let words = text(lines.iter().map(String::as_str));
    ("largest", words, run.write())
}

/// Every sort of blank, in every place, and no newline at the end.
fn blanks() -> Good {
    let words = "\n\t\r\n , \r\n\tcards,2 ,\t\n\
        \r\r\n,task\t\t0,home,card 0,\n\
        task 1   home \t card\r1\r\n\
        register 0 primary card 0 copies on,0,,1,\r\n\n\
        register 1 primary card 1 copies on 1\n,\n\
        \t0\tdispatch\tcard\t0\ttaken\r\n\
        ,,,report,,,task,,,1";
    let run = plain(vec![dispatch(0), report(1)]);
    ("blanks", words.into(), run)
}

/// In any order, and one twice.
fn holders() -> Good {
    let words = text([
        "cards 8",
        "task 0 home card 7",
        "register 0 primary card 3 copies on 7 0 3",
        "register 1 primary card 1 copies on 1 1",
        "register 2 primary card 0 copies on 0 1 2 3 4 5 6 7 0",
        "register 3 primary card 6 copies on 06",
    ]);
    let places = [(0b1000_1001, 3), (0b10, 1), (255, 0), (0b0100_0000, 6)];
    let run = Run {
        placement: Placement::new(8, &[7], &places),
        steps: vec![],
    };
    ("holders", words, run.write())
}

fn largest_numbers() -> Good {
    let words = small_text(&[
        "request read task 255 register 255",
        "request update task 255 register 255 larger 4294967295",
        "request update task 0 register 0 set 4294967294",
        "send read task 255 to card 255",
        "dispatch card 255",
        "take single task 255",
        "bytes ff ff ff ff ff ff ff ff ff",
    ]);
    let steps = vec![
        request_read(255, 255),
        request_update(255, 255, 3, u32::MAX),
        request_update(0, 0, 1, u32::MAX - 1),
        send_read(255, 255),
        dispatch(255),
        take_single(255),
        (255, [255; 8]),
    ];
    ("largest_numbers", words, small(steps))
}

/// A number has as many digits as one likes.
fn leading_zeros() -> Good {
    let words = text([
        "cards 0001 registers 01 tasks 00000000001 steps 2",
        "task 000 home card 00",
        "register 00000000000000000000 primary card 0 copies on 00000000000",
        "0000 dispatch card 000000000000255",
        "00001 request update task 0 register 0 set 00000000004294967295",
    ]);
    let steps = vec![dispatch(255), set(0, 0, u32::MAX)];
    ("leading_zeros", words, small(steps))
}

fn hex() -> Good {
    let words = small_text(&["bytes AB cD Ef 0a A0 00 fF 09 90"]);
    let step = (0xAB, [0xCD, 0xEF, 0x0A, 0xA0, 0x00, 0xFF, 0x09, 0x90]);
    ("hex", words, small(vec![step]))
}

/// Lines of 255 bytes: sizes, a step, nothing but blanks, an answer, the last without a newline.
fn longest_lines() -> Good {
    let [sizes, task, register] = SMALL;
    let blanks = padded("", 255);
    let answer = format!("report task 2 taken {}", "x".repeat(235));
    let zeros = format!("dispatch card {}7", "0".repeat(240));
    let last = padded("report task 3", 255);
    let lines = [
        &padded(sizes, 255),
        task,
        register,
        &padded("report task 1", 255),
        &blanks,
        &answer,
        &zeros,
        &last,
    ];
    assert!(lines.iter().skip(3).all(|line| line.len() == 255));
    let steps = vec![report(1), report(2), dispatch(7), report(3)];
    let words = lines.join("\n");
    ("longest_lines", words.into(), small(steps))
}
