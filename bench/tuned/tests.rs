//! States made by hand, by way of the words of the proved store (RULES 11.12): packed words are the
//! same in both, only where they lie differs. The model of tests/rust makes such words, with anything
//! in places and fields that are not used, and judges them.

mod check;
mod copies;
mod steps;

use gondzselu_model::memory::{self, Words, CHANNEL_WORDS, REGISTERS_WORDS};
use gondzselu_model::random::Random;

use crate::{Store, BROADCASTS, HELD, INBOX, OUTBOX};

/// Each word of a store with the word that it is among those of the proved one.
fn pairs(store: &mut Store, words: &mut Words, pair: impl Fn(&mut u32, &mut u32)) {
    let (r, c) = (&mut words.registers, &mut words.channel);
    pair(&mut store.requests, &mut r[memory::REQUESTS]);
    pair(&mut store.cards, &mut c[memory::CARDS]);
    pair(&mut store.tasks, &mut c[memory::TASKS]);
    pair(&mut store.registers, &mut c[memory::REGISTERS]);
    pair(&mut store.made, &mut c[memory::MADE]);
    for task in 0..16 {
        let at = memory::task(task);
        pair(&mut store.task[task], &mut r[at]);
        pair(&mut store.value[task], &mut r[at + memory::VALUE]);
        let at = memory::flight_message(task);
        let message = &mut store.flight[task];
        pair(&mut message.word, &mut c[at]);
        pair(&mut message.value, &mut c[at + memory::VALUE]);
        pair(&mut store.flight_tag[task], &mut c[at + memory::TAG]);
    }
    for register in 0..32 {
        let at = memory::register(register);
        pair(&mut store.register[register], &mut r[at]);
    }
    for place in 0..BROADCASTS {
        let at = memory::broadcast_message(place as u32 + 1);
        let message = &mut store.broadcast[place];
        pair(&mut message.word, &mut c[at]);
        pair(&mut message.value, &mut c[at + memory::VALUE]);
    }
    for card in 0..8 {
        for register in 0..32 {
            let at = memory::copy(card, register);
            pair(&mut store.copies[card][register], &mut r[at]);
        }
        let at = memory::outbox(card);
        pair(&mut store.outbox_head[card], &mut r[at]);
        pair(&mut store.outbox_count[card], &mut r[at + 1]);
        for place in 0..OUTBOX {
            let at = memory::outbox_message(card, place);
            let message = &mut store.outbox[card][place];
            pair(&mut message.word, &mut r[at]);
            pair(&mut message.value, &mut r[at + memory::VALUE]);
        }
        let at = memory::card(card);
        pair(&mut store.taken[card], &mut c[at]);
        pair(&mut store.inbox_head[card], &mut c[at + 1]);
        pair(&mut store.inbox_count[card], &mut c[at + 2]);
        pair(&mut store.held_count[card], &mut c[at + 3]);
        for place in 0..INBOX {
            let at = memory::inbox_message(card, place);
            let message = &mut store.inbox[card][place];
            pair(&mut message.word, &mut c[at]);
            pair(&mut message.value, &mut c[at + memory::VALUE]);
        }
        for place in 0..HELD {
            let at = memory::held_message(card, place);
            let message = &mut store.held[card][place];
            pair(&mut message.word, &mut c[at]);
            pair(&mut message.value, &mut c[at + memory::VALUE]);
            pair(&mut store.held_tag[card][place], &mut c[at + memory::TAG]);
        }
    }
}

fn store_of(words: &Words) -> Store {
    let mut store = Store::unstarted();
    pairs(&mut store, &mut words.clone(), |own, other| *own = *other);
    store
}

fn words_of(store: &Store) -> Words {
    let mut words = Words {
        registers: [0; REGISTERS_WORDS],
        channel: [0; CHANNEL_WORDS],
    };
    pairs(&mut store.clone(), &mut words, |own, other| *other = *own);
    words
}

/// No word is left out, on either side.
#[test]
fn every_word_is_paired() {
    let mut random = Random::new(1, 0);
    let words = Words {
        registers: [0; REGISTERS_WORDS].map(|_| random.bits() as u32),
        channel: [0; CHANNEL_WORDS].map(|_| random.bits() as u32),
    };
    assert!(words_of(&store_of(&words)) == words);
    let count = REGISTERS_WORDS + CHANNEL_WORDS;
    assert_eq!(size_of::<Store>(), count * size_of::<u32>());
}
