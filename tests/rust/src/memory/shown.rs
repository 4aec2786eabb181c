//! The state of the model that the words of a store show.

use super::{broadcast_places, flight_places, held_places, inbox_places, outbox_places};
use super::{card, copy, register, task};
use super::{ASKED, ASKED_FUNCTION, DESTINATIONS, DOING, FUNCTION, HOLDERS, HOME, KIND, PRIMARY};
use super::{CARDS, CHANNEL_WORDS, MADE, REGISTER, REGISTERS, REGISTERS_WORDS, REQUESTS};
use super::{TAG, TASK, TASKS, VALUE};
use crate::model::channel::{Body, Channel, Message, Tagged, BEHIND};
use crate::model::placement::{Place, Placement};
use crate::model::{Request, State, Task, Value};

fn message(words: &[u32]) -> Message {
    let (word, value) = (words[0], words[VALUE]);
    let register = REGISTER.of(word) as usize;
    let body = match KIND.of(word) {
        1 => Body::Request(Request::Read { register }),
        2 => Body::Request(Request::Update {
            register,
            function: FUNCTION.of(word) as u8,
            operand: value,
        }),
        3 => Body::Reply {
            value: Value::Read(value),
        },
        _ => Body::Reply {
            value: Value::Found(value),
        },
    };
    Message {
        task: TASK.of(word) as usize,
        to: DESTINATIONS.of(word) as u8,
        body,
    }
}

fn tagged(words: &[u32]) -> Tagged {
    Tagged {
        message: message(words),
        tag: words[TAG],
    }
}

fn task_in(words: &[u32]) -> Task {
    let (word, value) = (words[0], words[VALUE]);
    let register = ASKED.of(word) as usize;
    match DOING.of(word) {
        0 => Task::Quiet,
        1 => Task::Asking(Request::Read { register }),
        2 => Task::Asking(Request::Update {
            register,
            function: ASKED_FUNCTION.of(word) as u8,
            operand: value,
        }),
        3 => Task::Waiting,
        4 => Task::Done(Value::Read(value)),
        _ => Task::Done(Value::Found(value)),
    }
}

/// The state that a well-sized store shows.
pub fn shown(words: &[u32; REGISTERS_WORDS], c: &[u32; CHANNEL_WORDS]) -> State {
    let [cards, tasks, registers] = [CARDS, TASKS, REGISTERS].map(|at| c[at] as usize);
    let place = |number: usize| {
        let word = words[register(number)];
        Place {
            holders: HOLDERS.of(word) as u8,
            primary: PRIMARY.of(word) as u8,
        }
    };
    let in_outbox = |at: usize| message(&words[at..]);
    let in_channel = |at: usize| message(&c[at..]);
    let with_tag = |at: usize| tagged(&c[at..]);
    State {
        placement: Placement {
            cards: cards as u8,
            home: (0..tasks)
                .map(|number| HOME.of(words[task(number)]) as u8)
                .collect(),
            registers: (0..registers).map(place).collect(),
        },
        copies: (0..registers * cards)
            .map(|at| words[copy(at % cards, at / cards)])
            .collect(),
        tasks: (0..tasks)
            .map(|number| task_in(&words[task(number)..]))
            .collect(),
        requests: words[REQUESTS],
        channel: Channel {
            most_behind: BEHIND,
            made: c[MADE],
            recent: broadcast_places(c).map(in_channel).collect(),
            taken: (0..cards).map(|number| c[card(number)]).collect(),
            outbox: (0..cards)
                .map(|number| outbox_places(words, number).map(in_outbox).collect())
                .collect(),
            inbox: (0..cards)
                .map(|number| inbox_places(c, number).map(in_channel).collect())
                .collect(),
            held: (0..cards)
                .map(|number| held_places(c, number).map(with_tag).collect())
                .collect(),
            flight: flight_places(c, tasks)
                .into_iter()
                .map(|place| place.map(with_tag))
                .collect(),
        },
    }
}
