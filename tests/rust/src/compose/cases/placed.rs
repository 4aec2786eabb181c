//! Texts with a line that is understood and is out of place, or one too many.

use super::{many, more, text, with, Wrong, PLAIN};

pub fn cases() -> Vec<Wrong> {
    let parts = [
        before_the_sizes(),
        of_an_earlier_part(),
        after_the_counts(),
        not_the_next(),
        too_many(),
    ];
    parts.into_iter().flatten().collect()
}

fn before_the_sizes() -> Vec<Wrong> {
    let first = "line 1 is out of place";
    vec![
        ("task_before_sizes", more(1, &[PLAIN[1]]), first),
        ("register_before_sizes", more(1, &[PLAIN[3]]), first),
        ("step_before_sizes", more(1, &[PLAIN[5]]), first),
        (
            "counts_before_sizes",
            more(1, &["taken 1 refused 1"]),
            first,
        ),
        ("without_sizes", with(1, ""), "line 2 is out of place"),
    ]
}

fn of_an_earlier_part() -> Vec<Wrong> {
    vec![
        (
            "second_sizes",
            more(2, &["cards 2"]),
            "line 2 is out of place",
        ),
        (
            "sizes_after_steps",
            with(8, "cards 2"),
            "line 8 is out of place",
        ),
        (
            "task_after_register",
            more(5, &["task 2 home card 0"]),
            "line 5 is out of place",
        ),
        (
            "task_after_step",
            with(8, "task 2 home card 0"),
            "line 8 is out of place",
        ),
        (
            "register_after_step",
            more(7, &["register 2 primary card 0 copies on 0"]),
            "line 7 is out of place",
        ),
        (
            "task_after_step_alone",
            text(["cards 1", "dispatch card 0", "task 0 home card 0"]),
            "line 3 is out of place",
        ),
    ]
}

fn after_the_counts() -> Vec<Wrong> {
    let counts = "taken 1, refused 1";
    let last = "line 9 is out of place";
    vec![
        ("sizes_after_counts", more(8, &[counts, "cards 2"]), last),
        (
            "task_after_counts",
            more(8, &[counts, "task 2 home card 0"]),
            last,
        ),
        (
            "register_after_counts",
            more(8, &[counts, "register 2 primary card 0 copies on 0"]),
            last,
        ),
        (
            "step_after_counts",
            more(8, &[counts, "2 report task 1 taken"]),
            last,
        ),
        ("second_counts", more(8, &[counts, counts]), last),
        (
            "counts_before_steps",
            more(6, &["taken 0 refused 0"]),
            "line 7 is out of place",
        ),
    ]
}

fn not_the_next() -> Vec<Wrong> {
    vec![
        (
            "first_task_1",
            with(2, "task 1 home card 0"),
            "line 2 is out of place",
        ),
        (
            "task_twice",
            with(3, "task 0 home card 1"),
            "line 3 is out of place",
        ),
        (
            "task_left_out",
            with(3, "task 2 home card 1"),
            "line 3 is out of place",
        ),
        (
            "task_255",
            with(3, "task 255 home card 1"),
            "line 3 is out of place",
        ),
        (
            "first_register_1",
            with(4, "register 1 primary card 0 copies on 0"),
            "line 4 is out of place",
        ),
        (
            "register_twice",
            with(5, "register 0 primary card 1 copies on 1"),
            "line 5 is out of place",
        ),
        (
            "register_left_out",
            with(5, "register 2 primary card 1 copies on 1"),
            "line 5 is out of place",
        ),
        (
            "first_step_1",
            with(6, "1 dispatch card 0"),
            "line 6 is out of place",
        ),
        (
            "step_twice",
            with(7, "0 report task 1"),
            "line 7 is out of place",
        ),
        (
            "step_left_out",
            with(7, "2 report task 1"),
            "line 7 is out of place",
        ),
        // 1 in 8 and in 16 bits.
        (
            "step_257",
            with(7, "257 report task 1"),
            "line 7 is out of place",
        ),
        (
            "step_65537",
            with(7, "65537 report task 1"),
            "line 7 is out of place",
        ),
        (
            "step_4294967295",
            with(7, "4294967295 report task 1"),
            "line 7 is out of place",
        ),
    ]
}

fn too_many() -> Vec<Wrong> {
    vec![
        ("task_17", many(17, 1, &[]), "line 18 is one too many"),
        ("register_33", many(1, 33, &[]), "line 35 is one too many"),
        (
            "step_4097",
            many(1, 1, &["report task 0"; 4_097]),
            "line 4100 is one too many",
        ),
        // 1 in 8 bits.
        ("task_257", many(257, 1, &[]), "line 18 is one too many"),
    ]
}
