//! Texts of which every line is in place: told sizes that are others, placements that are refused;
//! and texts that are wrong in several ways.

use super::{changed, many, more, text, with, Wrong};

pub fn cases() -> Vec<Wrong> {
    [told(), refused(), several()].concat()
}

/// How many lines there are, told wrongly.
fn told() -> Vec<Wrong> {
    let of = |sizes: &str| with(1, &format!("cards 2, {sizes}"));
    let first = "line 1 counts otherwise than the text";
    vec![
        (
            "told_registers_1",
            of("registers 1, tasks 2, steps 2"),
            first,
        ),
        (
            "told_registers_3",
            of("registers 3, tasks 2, steps 2"),
            first,
        ),
        ("told_tasks_1", of("registers 2, tasks 1, steps 2"), first),
        ("told_tasks_3", of("registers 2, tasks 3, steps 2"), first),
        ("told_steps_1", of("registers 2, tasks 2, steps 1"), first),
        ("told_steps_3", of("registers 2, tasks 2, steps 3"), first),
        // 2 in 8 and in 16 bits.
        (
            "told_registers_258",
            of("registers 258, tasks 2, steps 2"),
            first,
        ),
        (
            "told_tasks_258",
            of("registers 2, tasks 258, steps 2"),
            first,
        ),
        (
            "told_steps_65538",
            of("registers 2, tasks 2, steps 65538"),
            first,
        ),
        (
            "told_steps_4294967295",
            of("registers 2, tasks 2, steps 4294967295"),
            first,
        ),
        (
            "told_on_line_3",
            [&b"\n \n"[..], &of("registers 0, tasks 0, steps 0")].concat(),
            "line 3 counts otherwise than the text",
        ),
    ]
}

const THREE: &str = "refused 3: a size out of range";
const CARDS: &str = "line 1: refused 3: a size out of range";

/// The message for a task or register in this line.
macro_rules! four {
    ($line:literal) => {
        concat!(
            "line ",
            $line,
            ": refused 4: no copy, a copy or home on an absent card, or a primary without a copy"
        )
    };
}

fn refused() -> Vec<Wrong> {
    vec![
        ("empty", Vec::new(), THREE),
        ("blanks_alone", b"\n \t\r\n,".to_vec(), THREE),
        ("cards_0", with(1, "cards 0"), CARDS),
        ("cards_9", with(1, "cards 9"), CARDS),
        ("cards_256", with(1, "cards 256"), CARDS),
        ("cards_258", with(1, "cards 258"), CARDS),
        ("cards_4294967295", with(1, "cards 4294967295"), CARDS),
        ("sizes_alone", text(["cards 1"]), THREE),
        ("no_tasks", many(0, 1, &[]), THREE),
        ("no_registers", many(1, 0, &["report task 0"]), THREE),
        (
            "told_nothing",
            text(["cards 1 registers 0 tasks 0 steps 0", "taken 0 refused 0"]),
            THREE,
        ),
        (
            "no_copy",
            with(5, "register 1 primary card 1 copies on"),
            four!(5),
        ),
        (
            "copy_on_absent_card",
            with(4, "register 0 primary card 0 copies on 0 2"),
            four!(4),
        ),
        (
            "home_on_absent_card",
            with(3, "task 1 home card 2"),
            four!(3),
        ),
        ("home_255", with(3, "task 1 home card 255"), four!(3)),
        (
            "primary_without_copy",
            with(5, "register 1 primary card 0 copies on 1"),
            four!(5),
        ),
        (
            "primary_absent",
            with(4, "register 0 primary card 2 copies on 0 1"),
            four!(4),
        ),
        (
            "primary_255",
            with(4, "register 0 primary card 255 copies on 0 1"),
            four!(4),
        ),
    ]
}

/// Wrong in several ways: the first message of the table, for the first line that is wrong.
fn several() -> Vec<Wrong> {
    vec![
        (
            "first_wrong_line",
            more(3, &["task 0 home card 0", "nonsense", "cards 2"]),
            "line 3 is out of place",
        ),
        (
            "not_understood_before_out_of_place",
            more(5, &["task 2 home card 256"]),
            "line 5 is not understood",
        ),
        (
            "out_of_place_before_too_many",
            many(16, 1, &["task 16 home card 0"]),
            "line 19 is out of place",
        ),
        (
            "not_next_before_too_many",
            many(1, 32, &["register 31 primary card 0 copies on 0"]),
            "line 35 is out of place",
        ),
        (
            "not_understood_before_too_many",
            many(16, 0, &["task 16 home card 256"]),
            "line 18 is not understood",
        ),
        (
            "too_many_before_told",
            [
                b"cards 1 registers 33 tasks 1 steps 0",
                &many(1, 33, &[])[7..],
            ]
            .concat(),
            "line 35 is one too many",
        ),
        (
            "line_before_told",
            changed(&[(1, "cards 2 registers 9 tasks 9 steps 9"), (8, "nonsense")]),
            "line 8 is not understood",
        ),
        (
            "cards_before_told",
            with(1, "cards 9 registers 2 tasks 2 steps 3"),
            CARDS,
        ),
        (
            "misplaced_before_told",
            changed(&[
                (1, "cards 2 registers 2 tasks 2 steps 0"),
                (4, "register 0 primary card 0 copies on"),
            ]),
            four!(4),
        ),
        (
            "told_before_three",
            text(["cards 1 registers 0 tasks 1 steps 0"]),
            "line 1 counts otherwise than the text",
        ),
        (
            "misplaced_before_no_tasks",
            text([
                "cards 1",
                "register 0 primary card 1 copies on",
                "dispatch card 0",
            ]),
            four!(2),
        ),
        (
            "misplaced_before_not_understood",
            changed(&[(2, "task 0 home card 2"), (3, "nonsense")]),
            four!(2),
        ),
        (
            "out_of_place_before_misplaced",
            with(3, "task 0 home card 2"),
            "line 3 is out of place",
        ),
        (
            "too_many_before_misplaced",
            many(16, 0, &["task 16 home card 1"]),
            "line 18 is one too many",
        ),
        (
            "cards_before_four",
            changed(&[(1, "cards 9"), (4, "register 0 primary card 0 copies on")]),
            CARDS,
        ),
        (
            "line_before_refused",
            many(0, 0, &["nonsense"]),
            "line 2 is not understood",
        ),
    ]
}
