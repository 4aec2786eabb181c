//! Rows of a message, in every kind of place.

use super::row::{below, sets, Rows, MOST};
use super::{last, FLIGHT, HELD, INBOX, OUTBOX};
use crate::memory;
use crate::model::channel::BEHIND;

pub fn messages(rows: &mut Rows) {
    let [cards, tasks, registers] = rows.sizes();
    let (words, c) = (&rows.words.registers, &rows.words.channel);
    let made = c[memory::MADE];
    let out = last(OUTBOX, cards);
    let inbox = last(INBOX, cards);
    let messages = [
        (
            "outbox",
            false,
            memory::outbox_message(out, words[memory::outbox(out)] as usize),
        ),
        (
            "inbox",
            true,
            memory::inbox_message(inbox, c[memory::card(inbox) + 1] as usize),
        ),
        ("held", true, memory::held_message(last(HELD, cards), 0)),
        ("flight", true, memory::flight_message(last(FLIGHT, tasks))),
        ("broadcast", true, memory::broadcast_message(made)),
        (
            "an old broadcast",
            true,
            memory::broadcast_message(made - (BEHIND - 1)),
        ),
    ];
    for place in messages {
        message(rows, place, [cards, tasks, registers]);
    }
}

/// The words of a message: packed, value and, of one that is held or in flight, tag.
fn message(rows: &mut Rows, place: (&str, bool, usize), [cards, tasks, registers]: [u32; 3]) {
    use memory::{DESTINATIONS, FUNCTION, KIND, REGISTER, TASK};
    let (name, channel, at) = place;
    let flight = name == "flight";
    let broadcast = name.contains("broadcast");
    let kinds = (0..=7).map(|kind| (kind, (1..=4).contains(&kind) || flight && kind == 0));
    rows.field(place, &[], KIND, kinds);
    rows.field(place, &[], TASK, below(tasks, TASK));
    for kind in 1..=4 {
        let kinds = [(KIND, kind)];
        rows.field(place, &kinds, REGISTER, below(registers, REGISTER));
        let functions = (0..=7).map(|f| (f, kind != 2 || (1..=5).contains(&f)));
        rows.field(place, &kinds, FUNCTION, functions);
    }
    // Any present cards, but one alone in flight and more than one of a broadcast.
    let to = sets(cards, DESTINATIONS, [false, !broadcast, !flight]);
    rows.field(place, &[], DESTINATIONS, to);
    rows.word(
        name,
        channel,
        at + memory::VALUE,
        &[(0, true), (MOST, true)],
    );
    if flight {
        // Nothing else is looked at where there is none.
        rows.word("no flight", channel, at, &[(0, true), (MOST - 7, true)]);
    }
    if flight || name == "held" {
        rows.word(
            "tag",
            channel,
            at + memory::TAG,
            &[(0, true), (65_535, true), (65_536, false), (MOST, false)],
        );
    }
}
