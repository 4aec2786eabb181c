//! Single words of the memories and single fields of packed words, each at its limit and past it.

mod counts;
mod messages;
mod row;
mod tables;
mod unused;

pub use row::Row;

use crate::memory::Words;
use crate::model::channel::{Body, Message, Tagged, BEHIND};
use crate::model::placement::Placement;
use crate::model::{only, Cards, Request, State};

/// Cards, registers and tasks, and broadcasts made, at least as many as are kept.
pub type Sizes = (u8, usize, usize, u32);

/// A task, a register or a primary past the last one fits in its field only where fewer are present
/// than there can be.
pub const SIZES: [Sizes; 4] = [
    (8, 32, 16, 70),
    (7, 31, 15, 65_535),
    (5, 20, 10, BEHIND + 1),
    (2, 1, 1, BEHIND),
];

/// Which card or task has something; the last one where there are not so many.
const OUTBOX: usize = 3;
const INBOX: usize = 5;
const HELD: usize = 6;
const FLIGHT: usize = 7;

/// The cards and tasks that have something in one of these states, and some that have nothing.
pub const LOOKED_AT: [u8; 8] = [0, 1, 3, 4, 5, 6, 7, 9];

/// A state of these sizes with a message in every kind of place, and no two copies alike.
pub fn filled((cards, registers, tasks, made): Sizes) -> State {
    let all = ((1u32 << cards) - 1) as Cards;
    let homes: Vec<u8> = (0..tasks as u8).map(|task| task % cards).collect();
    let placement = Placement::new(cards, &homes, &vec![(all, 0); registers]);
    let mut state = State::start(placement).expect("an accepted placement");
    state.copies = (1..).take(state.copies.len()).collect();
    let body = Body::Request(Request::Update {
        register: registers - 1,
        function: 1,
        operand: 9,
    });
    let message = |task: usize, to: Cards| Message {
        task: task.min(tasks - 1),
        to,
        body,
    };
    let tagged = |task: usize, to: Cards| Tagged {
        message: message(task, to),
        tag: (made + 1).min(65_535),
    };
    let card = |number: usize| number.min(cards as usize - 1);
    let channel = &mut state.channel;
    channel.made = made;
    channel.taken.fill(made);
    channel.recent = vec![message(0, 3); BEHIND as usize].into();
    channel.outbox[card(OUTBOX)].push_back(message(3, all));
    channel.inbox[card(INBOX)].push_back(message(4, only(card(INBOX))));
    channel.held[card(HELD)].push(tagged(5, only(card(HELD))));
    channel.flight[FLIGHT.min(tasks - 1)] = Some(tagged(tasks - 1, 1));
    state
}

/// The card or task of this number; the last one where there are not so many.
fn last(number: usize, size: u32) -> usize {
    number.min(size as usize - 1)
}

/// At its limit and past it, word by word and field by field, in the words of a filled state.
pub fn rows(words: &Words) -> Vec<Row> {
    let mut rows = row::Rows::new(words);
    counts::counts(&mut rows);
    tables::tables(&mut rows);
    messages::messages(&mut rows);
    unused::unused(&mut rows);
    rows.rows
}

#[cfg(test)]
mod tests {
    use super::*;
    use crate::memory::{well_sized, written};
    use crate::random::Random;

    /// What the rows say is what the rules say of the words; each field goes up to its limit, and
    /// past it in some sizes.
    #[test]
    fn rows_are_right() {
        let mut random = Random::new(0, 0);
        for sizes in SIZES {
            let state = filled(sizes);
            assert!(state.well_sized());
            for _ in 0..8 {
                let words = written(&state, &mut random);
                for row in rows(&words) {
                    for &(value, fine) in &row.values {
                        let changed = row.with(&words, value);
                        let found = well_sized(&changed.registers, &changed.channel);
                        let name = &row.name;
                        assert_eq!(found, fine, "{sizes:?}, {name}: word {} is {value}", row.at);
                    }
                }
            }
        }
    }
}
