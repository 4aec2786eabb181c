//! A counter hands out numbers (RULES 5.15): an update is told the value that it found, so tasks
//! that add 1 to one register have different numbers. Cards 0 and 1 hold a copy; card 2 holds none,
//! and its task is told by a reply of the primary, card 0. In each round all tasks send before a
//! message moves; then the cards take turns, another one first, and the order of their broadcasts
//! is that of the numbers.
//!
//!   cargo run --offline --example tickets

use std::error::Error;
use std::io::{self, Write};

use gondzselu::{Condition, Function, Placement, Refusal, Step, Store};

const CARDS: u8 = 3;
const TASKS: u8 = 3;
const ROUNDS: u8 = 3;

const PLACE: Placement<'_> = Placement {
    cards: CARDS,
    homes: &[0, 1, 2],
    copies: &[0b011],
    primaries: &[0],
};

/// Whether the step is taken. A refusal other than the one that says that nothing is there to be
/// moved is an error.
fn moves(store: &mut Store, step: Step, nothing: Refusal) -> Result<bool, Refusal> {
    match store.step(step) {
        Ok(_) => Ok(true),
        Err(refusal) if refusal == nothing => Ok(false),
        Err(refusal) => Err(refusal),
    }
}

/// The cards take turns, from this one on, until nothing moves.
fn settle(store: &mut Store, first: u8) -> Result<(), Refusal> {
    let mut moved = true;
    while moved {
        moved = false;
        for card in (first..first + CARDS).map(|card| card % CARDS) {
            moved |= moves(store, Step::Dispatch { card }, Refusal::OutboxEmpty)?;
            moved |= moves(store, Step::TakeBroadcast { card }, Refusal::NoBroadcast)?;
            moved |= moves(store, Step::Deliver { card }, Refusal::InboxEmpty)?;
        }
        for task in 0..TASKS {
            moved |= moves(store, Step::TakeSingle { task }, Refusal::NothingInFlight)?;
        }
    }
    Ok(())
}

fn main() -> Result<(), Box<dyn Error>> {
    let mut store = Store::start(PLACE)?;
    let mut handed = [false; TASKS as usize * ROUNDS as usize];
    let mut out = io::stdout().lock();
    for round in 0..ROUNDS {
        for task in 0..TASKS {
            store.step(Step::RequestUpdate {
                task,
                register: 0,
                function: Function::AddComesRound,
                operand: 1,
            })?;
            store.step(Step::SendUpdate { task })?;
        }
        settle(&mut store, round)?;
        write!(out, "round {round}:")?;
        for task in 0..TASKS {
            let done = store.task(task);
            let number = store.step(Step::Report { task })?.value;
            if done != Condition::DoneUpdate(number) {
                return Err("a report of another value".into());
            }
            match handed.get_mut(number as usize) {
                Some(before) if !*before => *before = true,
                _ => return Err("a number too large, or twice".into()),
            }
            let end = if task + 1 < TASKS { "," } else { "\n" };
            write!(out, " task {task} has number {number}{end}")?;
        }
    }
    for (card, count) in store.copies(0).into_iter().enumerate() {
        // No call says who holds a copy: the placement does.
        if PLACE.copies[0] & (1 << card) != 0 {
            writeln!(out, "card {card} counts {count}")?;
        } else if count != 0 {
            return Err("a count on a card without a copy".into());
        }
    }
    Ok(out.flush()?)
}
