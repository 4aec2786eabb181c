//! Where things lie, that what is written is shown, and words worked out by hand.

use super::*;
use crate::by_hand;
use crate::model::channel::{Body, Message, Tagged};
use crate::model::files::Run;
use crate::model::placement::Placement;
use crate::model::{Cards, Request, State, Task, Value};
use crate::named;
use crate::random::Random;

/// Each word of a memory is part of one thing, and none is spare.
#[test]
fn every_word_has_one_use() {
    let cards = || 0..8;
    let words = |at: usize, count: usize| at..at + count;
    let mut registers: Vec<usize> = vec![REQUESTS];
    registers.extend((0..16).flat_map(|number| words(task(number), 2)));
    registers.extend((0..32).map(register));
    registers.extend(cards().flat_map(|card| (0..32).map(move |number| copy(card, number))));
    registers.extend(cards().flat_map(|card| words(outbox(card), 2)));
    for card in cards() {
        registers.extend((0..16).flat_map(|place| words(outbox_message(card, place), 2)));
    }
    registers.sort();
    assert!(registers.into_iter().eq(0..REGISTERS_WORDS));
    let mut channel: Vec<usize> = vec![CARDS, TASKS, REGISTERS, MADE];
    channel.extend(cards().flat_map(|number| words(card(number), 4)));
    for card in cards() {
        channel.extend((0..48).flat_map(|place| words(inbox_message(card, place), 2)));
        channel.extend((0..16).flat_map(|place| words(held_message(card, place), 3)));
    }
    channel.extend((0..16).flat_map(|number| words(flight_message(number), 3)));
    channel.extend((0..24).flat_map(|number| words(broadcast_message(number), 2)));
    channel.sort();
    assert!(channel.into_iter().eq(0..CHANNEL_WORDS));
}

/// RULES 11.1.
#[test]
fn sizes() {
    assert_eq!([REGISTERS_WORDS, CHANNEL_WORDS], [593, 1_284]);
    assert_eq!(size_of::<Words>(), 7_508);
}

/// The places and fields of RULES 11.12, in numbers of their own.
#[test]
fn places_and_fields() {
    assert_eq!(
        [task(0), task(15), register(0), register(31)],
        [1, 31, 33, 64]
    );
    assert_eq!(
        [copy(0, 0), copy(7, 31), outbox(0), outbox(7)],
        [65, 320, 321, 559]
    );
    let out = [(0, 0), (2, 15), (2, 16), (7, 15)].map(|(card, place)| outbox_message(card, place));
    assert_eq!(out, [323, 421, 391, 591]);
    assert_eq!(
        [card(0), card(7), inbox_message(0, 0), inbox_message(7, 47)],
        [4, 1_040, 8, 1_138]
    );
    assert_eq!([held_message(0, 0), held_message(7, 15)], [104, 1_185]);
    assert_eq!([flight_message(0), flight_message(15)], [1_188, 1_233]);
    assert_eq!(
        [24, 1, 23, 25, 65_535].map(broadcast_message),
        [1_236, 1_238, 1_282, 1_238, 1_266]
    );
    let word = 2 + 8 * 13 + 128 * 30 + 4_096 * 5 + 32_768 * 131_070;
    let fields = [KIND, TASK, REGISTER, FUNCTION, DESTINATIONS];
    assert_eq!(fields.map(|field| field.of(word)), [2, 13, 30, 5, 131_070]);
    assert_eq!(fields.map(Field::most), [7, 15, 31, 7, 131_071]);
    let word = 4 + 8 * 17 + 256 * 6 + 2_048 * 2_097_150;
    let fields = [DOING, ASKED, ASKED_FUNCTION, HOME];
    assert_eq!(fields.map(|field| field.of(word)), [4, 17, 6, 2_097_150]);
    assert_eq!(fields.map(Field::most), [7, 31, 7, 2_097_151]);
    let word = 5 + 8 * 536_870_910;
    assert_eq!([PRIMARY.of(word), HOLDERS.of(word)], [5, 536_870_910]);
    assert_eq!([PRIMARY.most(), HOLDERS.most()], [7, 536_870_911]);
}

/// RULES 11.8: register after register, the copies of one side by side, 256 words and no more.
#[test]
fn places_of_copies() {
    let cards = |register: usize| [0, 1, 6, 7].map(|card| copy(card, register));
    assert_eq!(cards(0), [65, 66, 71, 72]);
    assert_eq!(cards(1), [73, 74, 79, 80]);
    assert_eq!(cards(31), [313, 314, 319, 320]);
    let places = (0..32).flat_map(|register| (0..8).map(move |card| copy(card, register)));
    assert!(places.eq(65..=320));
}

/// A field put is found again, and the others stay.
#[test]
fn fields_are_apart() {
    let words: [&[Field]; 3] = [
        &[KIND, TASK, REGISTER, FUNCTION, DESTINATIONS],
        &[DOING, ASKED, ASKED_FUNCTION, HOME],
        &[PRIMARY, HOLDERS],
    ];
    let mut random = Random::new(9, 0);
    for fields in words {
        assert_eq!(fields[0].unit, 1);
        for pair in fields.windows(2) {
            assert_eq!(pair[1].unit, pair[0].unit * pair[0].size);
        }
        for _ in 0..1_000 {
            let before = random.bits() as u32;
            let field = random.pick(fields);
            let number = random.bits() as u32 % field.size;
            let after = field.put(before, number);
            for &other in fields {
                let wanted = if other == field {
                    number
                } else {
                    other.of(before)
                };
                assert_eq!(other.of(after), wanted);
            }
        }
    }
}

#[test]
fn what_is_written_is_shown() {
    for item in 0..5_000 {
        let mut random = Random::new(11, item);
        let state = by_hand::any(&mut random);
        let Words { registers, channel } = written(&state, &mut random);
        assert!(well_sized(&registers, &channel), "item {item}");
        assert!(shown(&registers, &channel) == state, "item {item}");
    }
}

/// A start in words worked out by hand: 3 cards, tasks at 2 and 1, a register on cards 0 and 2.
#[test]
fn a_start_in_words() {
    let placement = Placement::new(3, &[2, 1], &[(5, 2)]);
    let mut registers = [0; REGISTERS_WORDS];
    let mut channel = [0; CHANNEL_WORDS];
    registers[1] = 4_096;
    registers[3] = 2_048;
    registers[33] = 2 + 8 * 5;
    channel[..3].copy_from_slice(&[3, 2, 1]);
    assert!(well_sized(&registers, &channel));
    assert!(shown(&registers, &channel) == State::start(placement).unwrap());
}

/// RULES 11.14: K9 after place 1. Then card 2 dispatches the message, and card 0 takes it.
#[test]
fn k9_in_words() {
    let k9 = named::runs().into_iter().find(|run| run.name == "K9");
    let run = Run::read(&k9.expect("K9").file).expect("an accepted file");
    let mut state = State::start(run.placement).expect("an accepted placement");
    let mut steps = run.steps.into_iter();
    let mut take = |state: &mut State, count: usize| {
        for (code, argument) in steps.by_ref().take(count) {
            assert_eq!(state.step(code, argument), (0, 0));
        }
    };
    let mut registers = [0; REGISTERS_WORDS];
    let mut channel = [0; CHANNEL_WORDS];
    registers[0] = 1;
    registers[3] = 2_048;
    registers[5] = 4_099;
    registers[33..35].copy_from_slice(&[8 * 7, 1 + 8 * 2]);
    registers[389..393].copy_from_slice(&[0, 1, 233_490, 7]);
    channel[..3].copy_from_slice(&[3, 3, 2]);
    take(&mut state, 2);
    assert!(well_sized(&registers, &channel));
    assert!(shown(&registers, &channel) == state);

    registers[389..391].copy_from_slice(&[1, 0]);
    channel[3] = 1;
    channel[1_238..1_240].copy_from_slice(&[233_490, 7]);
    channel[4..10].copy_from_slice(&[1, 0, 1, 0, 233_490, 7]);
    take(&mut state, 2);
    assert!(well_sized(&registers, &channel));
    assert!(shown(&registers, &channel) == state);
}

/// K9 as it ends (RULES 12.11): card 0's copy of register 0 is 7, card 1's copies are 7 and 9.
#[test]
fn copies_of_k9_in_words() {
    let k9 = named::runs().into_iter().find(|run| run.name == "K9");
    let run = Run::read(&k9.expect("K9").file).expect("an accepted file");
    let mut state = State::start(run.placement).expect("an accepted placement");
    for (code, argument) in run.steps {
        state.step(code, argument);
    }
    let Words { registers, channel } = written(&state, &mut Random::new(0, 0));
    assert_eq!(registers[65..68], [7, 7, 0]);
    assert_eq!(registers[73..76], [0, 9, 0]);
    let read = |number| read_copies(&registers, &channel, number);
    assert_eq!(read(0), [7, 7, 0, 0, 0, 0, 0, 0]);
    assert_eq!(read(1), [0, 9, 0, 0, 0, 0, 0, 0]);
    assert_eq!(read(2), [0; 8]);
}

/// Queues that come round in their rings, messages held and in flight, tasks that are done.
#[test]
fn queues_in_words() {
    let placement = Placement::new(3, &[0, 2], &[(5, 0); 4]);
    let mut state = State::start(placement).unwrap();
    let read = |task: usize, to: Cards| Message {
        task,
        to,
        body: Body::Request(Request::Read { register: 3 }),
    };
    let reply = Message {
        task: 1,
        to: 4,
        body: Body::Reply {
            value: Value::Read(6),
        },
    };
    let found = Message {
        body: Body::Reply {
            value: Value::Found(8),
        },
        ..reply
    };
    state.channel.outbox[2].extend([read(1, 1), read(0, 4), found]);
    state.channel.inbox[1].extend([reply, read(1, 2)]);
    state.channel.held[2] = vec![
        Tagged {
            message: reply,
            tag: 9,
        },
        Tagged {
            message: read(0, 4),
            tag: 65_535,
        },
    ];
    let in_flight = |message, tag| Some(Tagged { message, tag });
    state.channel.flight = vec![in_flight(found, 5), in_flight(reply, 9)];
    state.tasks = vec![Task::Done(Value::Read(70)), Task::Done(Value::Found(80))];
    let [reads, replies] = [1 + 128 * 3, 3 + 8 + 128 * 2 + 4_096 * 7 + 32_768 * 4];
    let mut registers = [0; REGISTERS_WORDS];
    let mut channel = [0; CHANNEL_WORDS];
    // A reply to an update is of the next kind.
    registers[1..5].copy_from_slice(&[4, 70, 4_096 + 5, 80]);
    registers[33..37].fill(8 * 5);
    registers[389..395].copy_from_slice(&[15, 3, reads + 32_768 * 4, 77, replies + 1, 8]);
    registers[421..423].copy_from_slice(&[reads + 8 + 32_768, 0]);
    channel[..3].copy_from_slice(&[3, 2, 4]);
    channel[153..156].copy_from_slice(&[47, 2, 0]);
    channel[250..252].copy_from_slice(&[replies, 6]);
    channel[156..158].copy_from_slice(&[reads + 8 + 32_768 * 2, 0]);
    channel[303] = 2;
    channel[400..406].copy_from_slice(&[replies, 6, 9, reads + 32_768 * 4, 0, 65_535]);
    channel[1_188..1_194].copy_from_slice(&[replies + 1, 8, 5, replies, 6, 9]);
    assert!(well_sized(&registers, &channel));
    assert!(shown(&registers, &channel) == state);
}
