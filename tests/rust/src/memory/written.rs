//! A state of the model in the words of a store.

use super::{
    broadcast_message, card, copy, flight_message, held_message, inbox_message, outbox,
    outbox_message, register, task, Field, Words,
};
use super::{ASKED, ASKED_FUNCTION, DESTINATIONS, DOING, FUNCTION, HOLDERS, HOME, KIND, PRIMARY};
use super::{CARDS, CHANNEL_WORDS, MADE, REGISTER, REGISTERS, REGISTERS_WORDS, REQUESTS};
use super::{TAG, TASK, TASKS, VALUE};
use crate::model::channel::{Body, Message, Tagged, HELD, INBOX, OUTBOX};
use crate::model::{Request, State, Task, Value};
use crate::random::Random;

/// Puts numbers in some fields of a word; the others stay as they were.
fn put(word: &mut u32, fields: &[(Field, u32)]) {
    for &(field, number) in fields {
        *word = field.put(*word, number);
    }
}

/// A message over what lies there: fields and words that its kind does not use stay as they are.
/// A reply has a register in memory, which the model leaves out: it is a present one.
fn put_message(words: &mut [u32], message: &Message, registers: usize) {
    let present = REGISTER.of(words[0]) as usize % registers;
    let (kind, register, function, value) = match message.body {
        Body::Request(Request::Read { register }) => (1, register, None, None),
        Body::Request(Request::Update {
            register,
            function,
            operand,
        }) => (2, register, Some(function), Some(operand)),
        Body::Reply { value } => {
            let kind = match value {
                Value::Read(_) => 3,
                Value::Found(_) => 4,
            };
            (kind, present, None, Some(value.word()))
        }
    };
    put(
        &mut words[0],
        &[
            (KIND, kind),
            (TASK, message.task as u32),
            (REGISTER, register as u32),
            (DESTINATIONS, message.to as u32),
        ],
    );
    if let Some(function) = function {
        put(&mut words[0], &[(FUNCTION, function as u32)]);
    }
    if let Some(value) = value {
        words[VALUE] = value;
    }
}

fn put_tagged(words: &mut [u32], tagged: &Tagged, registers: usize) {
    put_message(words, &tagged.message, registers);
    words[TAG] = tagged.tag;
}

/// What a task is doing, over what lies there, in the same way.
fn put_task(words: &mut [u32], task: &Task) {
    let (kind, value) = match *task {
        Task::Quiet => (0, None),
        Task::Asking(Request::Read { register }) => {
            put(&mut words[0], &[(ASKED, register as u32)]);
            (1, None)
        }
        Task::Asking(Request::Update {
            register,
            function,
            operand,
        }) => {
            let fields = [(ASKED, register as u32), (ASKED_FUNCTION, function as u32)];
            put(&mut words[0], &fields);
            (2, Some(operand))
        }
        Task::Waiting => (3, None),
        Task::Done(Value::Read(value)) => (4, Some(value)),
        Task::Done(Value::Found(value)) => (5, Some(value)),
    };
    put(&mut words[0], &[(DOING, kind)]);
    if let Some(value) = value {
        words[VALUE] = value;
    }
}

/// The memories of a state. Rings start anywhere; words and fields that mean nothing are anything,
/// or 0. Of a queue past its limit as much is written as there is room for, and its length.
pub fn written(state: &State, random: &mut Random) -> Words {
    let mut words = Words {
        registers: [0; REGISTERS_WORDS],
        channel: [0; CHANNEL_WORDS],
    };
    if random.percent(50) {
        let words = words.registers.iter_mut().chain(&mut words.channel);
        words.for_each(|word| *word = random.bits() as u32);
    }
    write_registers(state, &mut words.registers, random);
    write_channel(state, &mut words.channel, random);
    words
}

fn write_registers(state: &State, words: &mut [u32], random: &mut Random) {
    let placement = &state.placement;
    let registers = placement.registers.len();
    words[REQUESTS] = state.requests;
    for (number, (home, doing)) in placement.home.iter().zip(&state.tasks).enumerate() {
        let words = &mut words[task(number)..];
        put(&mut words[0], &[(HOME, *home as u32)]);
        put_task(words, doing);
    }
    for (number, place) in placement.registers.iter().enumerate() {
        let fields = [
            (PRIMARY, place.primary as u32),
            (HOLDERS, place.holders as u32),
        ];
        put(&mut words[register(number)], &fields);
        for card in 0..state.copies.len() / registers {
            words[copy(card, number)] = state.copy(card, number);
        }
    }
    for (number, queue) in state.channel.outbox.iter().enumerate() {
        let head = random.between(0, OUTBOX - 1);
        words[outbox(number)] = head as u32;
        words[outbox(number) + 1] = queue.len() as u32;
        for (place, message) in queue.iter().enumerate().take(OUTBOX) {
            let at = outbox_message(number, head + place);
            put_message(&mut words[at..], message, registers);
        }
    }
}

fn write_channel(state: &State, words: &mut [u32], random: &mut Random) {
    let State {
        placement, channel, ..
    } = state;
    let registers = placement.registers.len();
    words[CARDS] = placement.cards as u32;
    words[TASKS] = placement.home.len() as u32;
    words[REGISTERS] = registers as u32;
    words[MADE] = channel.made;
    for (number, taken) in channel.taken.iter().enumerate() {
        let (inbox, held) = (&channel.inbox[number], &channel.held[number]);
        let head = random.between(0, INBOX - 1);
        let lengths = [head, inbox.len(), held.len()].map(|length| length as u32);
        let at = card(number);
        words[at] = *taken;
        words[at + 1..at + 4].copy_from_slice(&lengths);
        for (place, message) in inbox.iter().enumerate().take(INBOX) {
            let at = inbox_message(number, head + place);
            put_message(&mut words[at..], message, registers);
        }
        for (place, held) in held.iter().enumerate().take(HELD) {
            let at = held_message(number, place);
            put_tagged(&mut words[at..], held, registers);
        }
    }
    for (number, single) in channel.flight.iter().enumerate() {
        let words = &mut words[flight_message(number)..];
        match single {
            None => put(&mut words[0], &[(KIND, 0)]),
            Some(single) => put_tagged(words, single, registers),
        }
    }
    for (back, message) in channel.recent.iter().rev().enumerate() {
        let at = broadcast_message(channel.made - back as u32);
        put_message(&mut words[at..], message, registers);
    }
}
