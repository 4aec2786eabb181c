//! Rows of words that are not looked at.

use super::row::{Rows, MOST};
use crate::memory;

/// Words of absent cards, tasks and registers, and places of a queue without a message.
pub fn unused(rows: &mut Rows) {
    let [cards, tasks, registers] = rows.sizes().map(|size| size as usize);
    let mut unused = vec![
        (false, memory::outbox_message(0, 0)),
        (true, memory::inbox_message(0, 0)),
        (true, memory::held_message(0, 0)),
        (true, memory::held_message(0, 0) + memory::TAG),
    ];
    if cards < 8 {
        let (out, card) = (memory::outbox(cards), memory::card(cards));
        unused.extend([out, out + 1].map(|at| (false, at)));
        unused.extend([card, card + 1, card + 2, card + 3].map(|at| (true, at)));
    }
    if tasks < 16 {
        unused.push((false, memory::task(tasks)));
        let flight = memory::flight_message(tasks);
        unused.extend([flight, flight + memory::TAG].map(|at| (true, at)));
    }
    if registers < 32 {
        unused.push((false, memory::register(registers)));
    }
    for (channel, at) in unused {
        rows.word("unused", channel, at, &[(0, true), (1, true), (MOST, true)]);
    }
}
