//! Step 8: which messages are held (RULES 5.8), what is answered, and how that counts.

use super::channel::{Tagged, HELD as MOST_HELD, INBOX};
use super::files::{answer_into, write_answer};
use super::tally::Tally;
use super::*;
use crate::named;
use crate::steps::{deliver, take_broadcast, take_single};

/// A message of task 0 with its value, so that no two are alike.
fn message(value: u32, to: Cards) -> Message {
    let value = Value::Read(value);
    let body = Body::Reply { value };
    Message { task: 0, to, body }
}

/// Three broadcasts were made, of which card 1 has taken two; a message of task 0 is in flight to it
/// with this tag.
fn in_flight(tag: u32) -> (State, Tagged) {
    let placement = Placement::new(2, &[0], &[(0b11, 0)]);
    let mut state = State::start(placement).unwrap();
    state.channel.made = 3;
    state.channel.recent = vec![message(9, 0b11); 3].into();
    state.channel.taken = vec![3, 2];
    let message = message(7, 0b10);
    let single = Tagged { message, tag };
    state.channel.flight[0] = Some(single);
    (state, single)
}

/// What step 8 of task 0 answers.
fn taken_by(state: &mut State) -> (u8, u32) {
    let (code, argument) = take_single(0);
    state.step(code, argument)
}

/// Above what was taken it is held, and equal or below it joins; nothing else changes (5.12).
#[test]
fn by_the_tag() {
    for (tag, result) in [(0, 0), (1, 0), (2, 0), (3, 100), (4, 100), (65_535, 100)] {
        let (mut state, single) = in_flight(tag);
        let mut wanted = state.clone();
        wanted.channel.flight[0] = None;
        match result {
            0 => wanted.channel.inbox[1].push_back(single.message),
            _ => wanted.channel.held[1].push(single),
        }
        assert_eq!(taken_by(&mut state), (result, 0), "tag {tag}");
        assert!(state == wanted, "tag {tag}");
        assert_eq!(taken_by(&mut state), (32, 0), "it is no longer in flight");
    }
}

/// Queues that are full: 6 only where the message would join that one. A refused step changes
/// nothing, so it is neither held nor in the inbox.
#[test]
fn where_there_is_no_room() {
    let full = |tag: u32, inbox: usize, held: usize| {
        let (mut state, single) = in_flight(tag);
        state.channel.inbox[1] = vec![message(5, 0b10); inbox].into();
        state.channel.held[1] = vec![Tagged { tag: 9, ..single }; held];
        let before = state.clone();
        let answer = taken_by(&mut state);
        let lengths = (state.channel.inbox[1].len(), state.channel.held[1].len());
        assert_eq!(state == before, answer.0 == 6);
        (answer, lengths)
    };
    assert_eq!(full(2, INBOX, 0), ((6, 0), (48, 0)));
    assert_eq!(full(3, INBOX, 0), ((100, 0), (48, 1)));
    assert_eq!(full(2, 0, MOST_HELD), ((0, 0), (1, 16)));
    assert_eq!(full(3, 0, MOST_HELD), ((6, 0), (0, 16)));
    assert_eq!(full(3, INBOX - 1, MOST_HELD - 1), ((100, 0), (47, 16)));
    assert_eq!(full(2, INBOX - 1, MOST_HELD - 1), ((0, 0), (48, 15)));
}

/// No step but 8 answers 100: not the one that releases, nor one that finds nothing.
#[test]
fn steps_about_a_held_message() {
    let (mut state, _) = in_flight(3);
    let mut tally = Tally::default();
    let mut answers = Vec::new();
    let steps = [
        deliver(1),
        take_single(0),
        take_single(0),
        deliver(1),
        take_broadcast(1),
        deliver(1),
        deliver(1),
        deliver(1),
    ];
    for (code, argument) in steps {
        let (result, _) = state.step(code, argument);
        tally.count(result);
        answers.push(result);
    }
    assert_eq!(answers, [33, 100, 32, 33, 0, 0, 0, 33]);
    assert_eq!((tally.taken, tally.refused), (4, 4));
    assert_eq!(state.tasks[0], Task::Done(Value::Read(7)));
}

/// K9 as RULES 4.7 has its answer, and its tally.
#[test]
fn a_whole_run() {
    let k9 = named::runs().into_iter().find(|run| run.name == "K9");
    let mut answers = [(0, 0); 16];
    answers[7] = (0, 7);
    answers[11] = (100, 0);
    answers[12] = (33, 0);
    let (mut tally, mut output) = (Tally::default(), [0xA5; 83]);
    let file = k9.expect("K9").file;
    assert_eq!(answer_into(&file, &mut output, &mut tally), 0);
    assert_eq!(output[..82], write_answer(&answers));
    assert_eq!((output[13], output[14], output[46]), (0x64, 0x21, 0x07));
    assert_eq!(output[82], 0xA5);
    assert_eq!((tally.taken, tally.refused), (15, 1));
}
