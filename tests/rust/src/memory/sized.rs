//! Which words of a store are well sized.

use super::{broadcast_places, flight_places, held_places, inbox_places, outbox_places};
use super::{card, outbox, register, shown, task};
use super::{CARDS, CHANNEL_WORDS, REGISTERS, REGISTERS_WORDS, TASKS};
use super::{DESTINATIONS, DOING, HOLDERS, HOME, KIND, REGISTER};
use crate::model::channel::{HELD, INBOX, OUTBOX};
use crate::model::placement::sizes_in_range;

/// Whether a store of any words is well sized (RULES 8.6). What a state of the model cannot have
/// is looked at here, the rest in the one that the words show.
pub fn well_sized(words: &[u32; REGISTERS_WORDS], c: &[u32; CHANNEL_WORDS]) -> bool {
    let [cards, tasks, registers] = [CARDS, TASKS, REGISTERS].map(|at| c[at] as usize);
    let queues = |number: usize| {
        let (out, card) = (outbox(number), card(number));
        words[out] < OUTBOX as u32
            && words[out + 1] <= OUTBOX as u32
            && c[card + 1] < INBOX as u32
            && c[card + 2] <= INBOX as u32
            && c[card + 3] <= HELD as u32
    };
    if !sizes_in_range(cards, registers, tasks, 0) || !(0..cards).all(queues) {
        return false;
    }
    // A kind that there is, destinations that a set of eight cards can have, and the register of
    // a reply.
    let message = |word: u32| {
        (1..=4).contains(&KIND.of(word))
            && DESTINATIONS.of(word) < 256
            && (REGISTER.of(word) as usize) < registers
    };
    let task = |number: usize| {
        let word = words[task(number)];
        DOING.of(word) <= 5 && HOME.of(word) < 256
    };
    let in_outbox = |number: usize| outbox_places(words, number).all(|at| message(words[at]));
    let in_channel = |at: usize| message(c[at]);
    (0..tasks).all(task)
        && (0..registers).all(|number| HOLDERS.of(words[register(number)]) < 256)
        && (0..cards).all(in_outbox)
        && (0..cards).all(|number| inbox_places(c, number).all(in_channel))
        && (0..cards).all(|number| held_places(c, number).all(in_channel))
        && flight_places(c, tasks)
            .into_iter()
            .flatten()
            .all(in_channel)
        && broadcast_places(c).all(in_channel)
        && shown(words, c).well_sized()
}
