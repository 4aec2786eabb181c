//! States made by hand, which no run needs to reach: any well-sized state, or one with something
//! at its limit or past it; single words and fields at their limits and past them; wild words.

mod stretch;
pub mod wild;
pub mod words;

use crate::generate::{any_placement, known_function, operand};
use crate::model::channel::{Body, Message, Tagged, BEHIND};
use crate::model::placement::Placement;
use crate::model::{only, Cards, Request, State, Task, Value};
use crate::random::Random;

fn all(placement: &Placement) -> Cards {
    ((1u32 << placement.cards) - 1) as u8
}

fn message(random: &mut Random, placement: &Placement, to: Cards) -> Message {
    let body = match random.between(0, 2) {
        0 => Body::Reply {
            value: value(random),
        },
        _ => Body::Request(request(random, placement)),
    };
    let task = random.between(0, placement.home.len() - 1);
    Message { task, to, body }
}

/// Any word, read or found.
fn value(random: &mut Random) -> Value {
    let word = operand(random);
    match random.percent(50) {
        true => Value::Read(word),
        false => Value::Found(word),
    }
}

fn request(random: &mut Random, placement: &Placement) -> Request {
    let register = random.between(0, placement.registers.len() - 1);
    match random.percent(50) {
        true => Request::Read { register },
        false => Request::Update {
            register,
            function: known_function(random),
            operand: operand(random),
        },
    }
}

fn task(random: &mut Random, placement: &Placement) -> Task {
    match random.between(0, 5) {
        0 => Task::Quiet,
        1 | 2 => Task::Asking(request(random, placement)),
        3 => Task::Waiting,
        _ => Task::Done(value(random)),
    }
}

/// How many of a queue: none, few, the most, nearly the most.
fn queue(random: &mut Random, most: usize) -> usize {
    match random.between(0, 4) {
        0 | 1 => 0,
        2 => random.between(1, 3),
        3 => most,
        _ => random.between(0, most),
    }
}

/// Any well-sized state (RULES 8.6). What lies in an inbox or is held may be for other cards, and a
/// task's slot may have another task's message: no fault by RULES 8.7.
pub fn any(random: &mut Random) -> State {
    let placement = any_placement(random);
    let (cards, all) = (placement.cards as usize, all(&placement));
    let mut state = State::start(placement.clone()).expect("an accepted placement");
    state.requests = random.pick(&[0, 1, 9, 65_534, 65_535]);
    state
        .copies
        .iter_mut()
        .for_each(|value| *value = operand(random));
    state
        .tasks
        .iter_mut()
        .for_each(|doing| *doing = task(random, &placement));
    let channel = &mut state.channel;
    if cards > 1 {
        let small = random.between(1, BEHIND as usize - 1) as u32;
        let more = 1_000 + small;
        channel.made = random.pick(&[0, small, BEHIND, BEHIND + 1, more, 65_534, 65_535]);
    }
    let made = channel.made;
    let kept = made.min(BEHIND);
    for _ in 0..kept {
        let to = several(random, all);
        channel.recent.push_back(message(random, &placement, to));
    }
    for card in 0..cards {
        let some = random.between(0, kept as usize) as u32;
        channel.taken[card] = made - random.pick(&[0, some, kept]);
        for _ in 0..queue(random, 16) {
            let to = random.byte(1, all);
            channel.outbox[card].push_back(message(random, &placement, to));
        }
        let broadcasts = random.pick(&[0, 50, 100]);
        let stray = random.pick(&[0, 0, 50]);
        for _ in 0..queue(random, 48) {
            let others = match cards > 1 && random.percent(broadcasts) {
                true => several(random, all),
                false => 0,
            };
            let to = match random.percent(stray) {
                true => random.byte(1, all),
                false => only(card) | others,
            };
            channel.inbox[card].push_back(message(random, &placement, to));
        }
        for _ in 0..queue(random, 16) {
            let to = match random.percent(stray) {
                true => random.byte(1, all),
                false => only(card),
            };
            let held = tagged(random, &placement, to, channel.taken[card]);
            channel.held[card].push(held);
        }
    }
    for number in 0..channel.flight.len() {
        if random.percent(50) {
            let card = random.between(0, cards - 1);
            let mut single = tagged(random, &placement, only(card), channel.taken[card]);
            if random.percent(80) {
                single.message.task = number;
            }
            channel.flight[number] = Some(single);
        }
    }
    state
}

/// More than one of these cards.
fn several(random: &mut Random, all: Cards) -> Cards {
    loop {
        let to = random.byte(1, all) & all;
        if to.count_ones() > 1 {
            return to;
        }
    }
}

/// A message with a tag about a number taken.
fn tagged(random: &mut Random, placement: &Placement, to: Cards, taken: u32) -> Tagged {
    let message = message(random, placement, to);
    let tag = random.pick(&[taken, taken + 1, taken + 1, taken + 2, 65_535, 0]);
    Tagged {
        message,
        tag: tag.min(65_535),
    }
}

/// Any state, and in more than half of the cases one thing of it at its limit or past it.
pub fn state(random: &mut Random) -> State {
    let mut state = any(random);
    if random.percent(60) {
        stretch::stretch(random, &mut state);
    }
    state
}

#[cfg(test)]
mod tests {
    use std::collections::{BTreeMap, BTreeSet};

    use super::*;
    use crate::generate::near;
    use crate::memory::{shown, well_sized, written, Words};
    use crate::statistics::{self, STATES};

    /// So many states have every fault that a state of the model can have, cards as far behind as
    /// they can be and further, and their words have a fault just where the states have one.
    #[test]
    fn states_have_every_fault() {
        let mut faults = BTreeMap::new();
        let mut behind = BTreeSet::new();
        for item in 0..STATES {
            let mut random = Random::new(3, item);
            let state = state(&mut random);
            for fault in state.faults() {
                *faults.entry(fault).or_default() += 1;
            }
            let taken = state.channel.taken.iter();
            behind.extend(taken.map(|taken| state.channel.made.wrapping_sub(*taken)));
            let Words { registers, channel } = written(&state, &mut random);
            let fine = well_sized(&registers, &channel);
            assert_eq!(fine, state.well_sized(), "item {item}");
            assert!(!fine || shown(&registers, &channel) == state, "item {item}");
        }
        assert_eq!(statistics::faults(&faults), [""; 0]);
        assert!((0..=26).all(|number| behind.contains(&number)));
    }

    /// Tasks and replies have values, read and found, 0 and above.
    #[test]
    fn values_of_both_sorts() {
        let mut seen = BTreeSet::new();
        for item in 0..200 {
            let state = any(&mut Random::new(3, item));
            let queued = state.channel.outbox.iter().chain(&state.channel.inbox);
            let messages = queued.flatten().map(|message| match message.body {
                Body::Reply { value } => Some(("reply", value)),
                Body::Request(_) => None,
            });
            let tasks = state.tasks.iter().map(|task| match task {
                Task::Done(value) => Some(("task", *value)),
                _ => None,
            });
            for (of, value) in messages.chain(tasks).flatten() {
                let found = matches!(value, Value::Found(_));
                seen.insert((of, found, value.word() > 0));
            }
        }
        assert_eq!(seen.len(), 8, "{seen:?}");
    }

    /// Steps from so many states have every result, 100 among them, which only a step 8 has.
    #[test]
    fn steps_have_every_result() {
        let (mut ill_sized, mut results) = (0, BTreeMap::new());
        for item in 0..STATES {
            let mut random = Random::new(3, item);
            let mut state = state(&mut random);
            if !state.well_sized() {
                ill_sized += 1;
                continue;
            }
            for _ in 0..6 {
                let (code, argument) = near(&mut random, &state.placement);
                let (result, _) = state.step_reached(code, argument);
                assert!(result != 100 || code == 8, "item {item}");
                *results.entry(result).or_default() += 1;
            }
        }
        let missing = statistics::by_hand(STATES as usize, ill_sized, &results);
        assert_eq!(missing, [""; 0]);
    }
}
