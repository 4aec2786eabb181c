//! One thing of a state put at its limit or past it. A task, a register, a primary or a function
//! past its limit is one that its field in memory can have: no task where 16 are present.

use super::{message, tagged, value};
use crate::memory::{Field, ASKED, PRIMARY, REGISTER, TASK};
use crate::model::channel::{Body, Message, BEHIND};
use crate::model::placement::Placement;
use crate::model::{only, Request, State, Task};
use crate::random::Random;

/// Every message of a state.
fn messages(state: &mut State) -> Vec<&mut Message> {
    let channel = &mut state.channel;
    let queues = channel
        .outbox
        .iter_mut()
        .chain(&mut channel.inbox)
        .flatten();
    let held = channel
        .held
        .iter_mut()
        .flatten()
        .map(|held| &mut held.message);
    let flight = channel
        .flight
        .iter_mut()
        .flatten()
        .map(|single| &mut single.message);
    queues
        .chain(&mut channel.recent)
        .chain(held)
        .chain(flight)
        .collect()
}

/// The last of so many, the first past them and the largest number that the field can have, or
/// that again where there is no room past them.
fn past(random: &mut Random, size: usize, field: Field) -> usize {
    let most = field.most() as usize;
    random.pick(&[size - 1, size.min(most), most])
}

/// Puts one thing at its limit or past it.
pub fn stretch(random: &mut Random, state: &mut State) {
    let placement = state.placement.clone();
    let (cards, registers, tasks) = (
        placement.cards as usize,
        placement.registers.len(),
        placement.home.len(),
    );
    let card = random.between(0, cards - 1);
    let number = random.between(0, tasks - 1);
    let register = random.between(0, registers - 1);
    let made = state.channel.made;
    match random.between(0, 16) {
        0 => state.requests = random.pick(&[65_535, 65_536, u32::MAX]),
        1 if made > BEHIND => {
            state.channel.made = random.pick(&[65_535, 65_536, 65_600]);
            state.channel.taken.fill(state.channel.made);
        }
        1 | 2 => state.channel.taken[card] = random.pick(&[made, made + 1, u32::MAX]),
        3 => {
            let behind = random.between(BEHIND as usize - 1, BEHIND as usize + 2) as u32;
            state.channel.taken[card] = made.saturating_sub(behind);
        }
        4 => state.placement.home[number] = random.pick(&[cards as u8 - 1, cards as u8, 255]),
        5 => state.placement.registers[register].holders = random.byte(0, 255),
        6 => state.placement.registers[register].primary = past(random, cards, PRIMARY) as u8,
        7 => {
            let more = message(random, &placement, 1);
            let most = random.pick(&[16, 17]);
            state.channel.outbox[card].resize(most, more);
        }
        8 => {
            let more = message(random, &placement, only(card));
            let most = random.pick(&[48, 49]);
            state.channel.inbox[card].resize(most, more);
        }
        9 => {
            let more = tagged(random, &placement, only(card), made);
            let most = random.pick(&[16, 17]);
            state.channel.held[card].resize(most, more);
        }
        10 => {
            let function = random.byte(0, 7);
            let register = past(random, registers, ASKED);
            state.tasks[number] = Task::Asking(match random.percent(50) {
                true => Request::Read { register },
                false => Request::Update {
                    register,
                    function,
                    operand: 7,
                },
            });
        }
        11 => {
            let tag = random.pick(&[65_535, 65_536, u32::MAX]);
            let channel = &mut state.channel;
            let held = channel.held.iter_mut().flatten();
            let mut singles: Vec<_> = held.chain(channel.flight.iter_mut().flatten()).collect();
            if !singles.is_empty() {
                let at = random.between(0, singles.len() - 1);
                singles[at].tag = tag;
            }
        }
        _ => {
            let mut messages = messages(state);
            if messages.is_empty() {
                return;
            }
            let at = random.between(0, messages.len() - 1);
            stretch_message(random, &placement, messages[at]);
        }
    }
}

fn stretch_message(random: &mut Random, placement: &Placement, message: &mut Message) {
    let (registers, tasks) = (placement.registers.len(), placement.home.len());
    match random.between(0, 4) {
        // Another task that is there would not be past its limit.
        0 if tasks < 16 => message.task = random.pick(&[tasks, TASK.most() as usize]),
        1 => message.to = 0,
        2 if placement.cards < 8 => message.to |= 1 << random.byte(placement.cards, 7),
        // A broadcast to one card, a message in flight to several.
        4 => {
            message.to = match random.percent(50) {
                true => 1 << random.byte(0, placement.cards - 1),
                false => random.byte(1, ((1u32 << placement.cards) - 1) as u8),
            }
        }
        _ => {
            let new = past(random, registers, REGISTER);
            match &mut message.body {
                Body::Request(Request::Read { register }) => *register = new,
                Body::Request(Request::Update { register, .. }) if random.percent(50) => {
                    *register = new
                }
                Body::Request(Request::Update { function, .. }) => {
                    *function = random.pick(&[1, 5, 0, 6, 7])
                }
                Body::Reply { value: old } => *old = value(random),
            }
        }
    }
}
