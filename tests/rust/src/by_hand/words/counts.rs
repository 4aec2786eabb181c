//! Rows of sizes, counts, and where queues start and how long they are.

use super::last;
use super::row::{Rows, MOST};
use crate::memory;
use crate::model::channel::BEHIND;

pub fn counts(rows: &mut Rows) {
    let [cards, tasks, present] = rows.sizes();
    let made = rows.words.channel[memory::MADE];
    // One fewer leaves holders, a message's task or its register absent.
    let sizes = [
        ("cards", memory::CARDS, cards, 8),
        ("tasks", memory::TASKS, tasks, 16),
        ("registers", memory::REGISTERS, present, 32),
    ];
    for (name, at, size, most) in sizes {
        let values = [size - 1, 0, most + 1, MOST].map(|number| (number, false));
        rows.word(name, true, at, &values);
        rows.word(name, true, at, &[(size, true)]);
    }
    rows.word(
        "made",
        true,
        memory::MADE,
        &[
            (made, true),
            (made - 1, false),
            (65_536, false),
            (MOST, false),
        ],
    );
    let card = memory::card(last(2, cards));
    let empty = memory::card(0);
    rows.word(
        "taken",
        true,
        card,
        &[
            (made, true),
            (made - BEHIND, true),
            (made.wrapping_sub(BEHIND + 1), false),
            (made + 1, false),
            (MOST, false),
        ],
    );
    rows.word(
        "inbox start",
        true,
        empty + 1,
        &[(0, true), (47, true), (48, false), (MOST, false)],
    );
    rows.word(
        "inbox length",
        true,
        empty + 2,
        &[(0, true), (49, false), (MOST, false)],
    );
    rows.word(
        "held length",
        true,
        empty + 3,
        &[(0, true), (17, false), (MOST, false)],
    );
    rows.word(
        "requests",
        false,
        memory::REQUESTS,
        &[(65_535, true), (65_536, false), (MOST, false)],
    );
    let outbox = memory::outbox(0);
    rows.word(
        "outbox start",
        false,
        outbox,
        &[(0, true), (15, true), (16, false), (MOST, false)],
    );
    rows.word(
        "outbox length",
        false,
        outbox + 1,
        &[(0, true), (17, false), (MOST, false)],
    );
}
