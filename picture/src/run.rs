//! A run, as the library plays it: its steps with their answers, its operations, the ways of its
//! messages, and what cards and tasks show at each tick.

use gondzselu::{Function, Refusal, Step, Store, HELD};

use crate::file::RunFile;
use crate::follow::Follower;
use crate::words::{self, Packet};

/// Where a step stands in the run, from 0 (RULES 1.7).
pub type Place = usize;
/// An operation, by its number (RULES 12.4).
pub type Number = usize;
/// A message, by when it joined an outbox.
pub type Id = usize;

/// A step with its answer.
pub struct Played {
    pub code: u8,
    pub argument: [u8; 8],
    pub answer: Result<Taken, Refusal>,
    /// On whose line it is drawn.
    pub card: Option<u8>,
    /// The copies that it changed.
    pub changes: Vec<Change>,
}

impl Played {
    /// As in an answer file (RULES 4.2).
    pub fn result(&self) -> u8 {
        match &self.answer {
            Err(refusal) => refusal.number(),
            Ok(taken) => match taken.effect {
                Effect::Reaches(_, true) => HELD,
                _ => 0,
            },
        }
    }

    /// As in an answer file (RULES 4.3).
    pub fn value(&self) -> u32 {
        match &self.answer {
            Ok(Taken {
                effect: Effect::Reports(value),
                ..
            }) => *value,
            _ => 0,
        }
    }
}

/// What a taken step did.
#[derive(Clone)]
pub struct Taken {
    pub operation: Number,
    pub effect: Effect,
}

#[derive(Clone)]
pub enum Effect {
    /// Steps 1 and 2.
    Opens,
    /// Step 3.
    Performs,
    /// Steps 4 and 5: the message joins an outbox.
    Sends(Id),
    /// Step 6.
    Dispatches(Id),
    /// Step 7, with the held messages that it releases.
    Takes(Id, Vec<Id>),
    /// Step 8, and whether the message is held.
    Reaches(Id, bool),
    /// Step 9, with the reply that it makes.
    Delivers(Id, Option<Id>),
    /// Step 10.
    Reports(u32),
}

/// A copy's value became another.
#[derive(Clone, Copy)]
pub struct Change {
    pub card: u8,
    pub register: u8,
    pub was: u32,
    pub is: u32,
}

pub struct Operation {
    pub task: u8,
    pub register: u8,
    /// Function and operand of an update.
    pub update: Option<(Function, u32)>,
}

pub struct Message {
    pub operation: Number,
    /// As it joined its outbox.
    pub packet: Packet,
    /// The card whose outbox it joined, and at which place.
    pub from: u8,
    pub sent: Place,
    pub dispatched: Option<Dispatched>,
    /// By card, of those that it goes to.
    pub arrivals: Vec<Arrival>,
}

#[derive(Clone, Copy)]
pub struct Dispatched {
    pub place: Place,
    pub how: How,
}

#[derive(Clone, Copy)]
pub enum How {
    /// With its number.
    Broadcast(u32),
    /// With its tag.
    Single(u32),
}

/// What becomes of a message at a card.
#[derive(Clone, Copy)]
pub struct Arrival {
    pub card: u8,
    /// A card that is no destination takes a broadcast and drops it.
    pub dropped: bool,
    pub taken: Option<Place>,
    pub held: bool,
    pub released: Option<Place>,
    pub delivered: Option<Place>,
}

impl Arrival {
    pub fn to(card: u8, dropped: bool) -> Arrival {
        Arrival {
            card,
            dropped,
            taken: None,
            held: false,
            released: None,
            delivered: None,
        }
    }

    /// The place from which on it is in the inbox.
    pub fn joined(&self) -> Option<Place> {
        let place = if self.held { self.released } else { self.taken };
        place.filter(|_| !self.dropped)
    }
}

/// What is shown between two steps.
pub struct Tick {
    /// Broadcasts made, by all cards.
    pub made: u32,
    pub cards: Vec<CardTick>,
    /// The condition of each task (RULES 1.8).
    pub tasks: Vec<u8>,
}

pub struct CardTick {
    /// Broadcasts that this card made.
    pub made: u32,
    pub taken: u32,
    pub outbox: usize,
    pub inbox: usize,
    pub held: usize,
    /// The value of each copy that the card holds, by rising register.
    pub copies: Vec<u32>,
}

pub struct Run<'a> {
    pub file: RunFile<'a>,
    pub steps: Vec<Played>,
    pub operations: Vec<Operation>,
    pub messages: Vec<Message>,
    /// Before each step, and after the last.
    pub ticks: Vec<Tick>,
}

impl<'a> Run<'a> {
    /// Plays a file, or says why there is no picture of it.
    pub fn of(file: &'a [u8]) -> Result<Run<'a>, String> {
        let refused = |refusal: Refusal| format!("refused with {}: {refusal}", refusal.number());
        let mut store = Store::start_from_file(file).map_err(refused)?;
        let file = RunFile::of_accepted(file);
        let mut follower = Follower::new(&file);
        let mut ticks = vec![Tick::of(&store, &file, &follower.made)];
        let mut steps = Vec::new();
        for (place, (code, argument)) in file.steps().enumerate() {
            let answer = match store.step_bytes(code, argument) {
                Err(refusal) => Err(refusal),
                Ok(taken) => {
                    let step = Step::from_bytes(code, argument)
                        .map_err(|_| format!("step {place} is taken, and its bytes are no step"))?;
                    let taken = follower.follow(place, step, taken, &store);
                    Ok(taken.ok_or_else(|| otherwise(place))?)
                }
            };
            if !follower.agrees_with(&store) {
                return Err(otherwise(place));
            }
            ticks.push(Tick::of(&store, &file, &follower.made));
            let reached = match &answer {
                Ok(taken) => follower.reached(taken),
                Err(_) => None,
            };
            let changes = changes(&file, &ticks[place], &ticks[place + 1]);
            steps.push(Played {
                code,
                argument,
                answer,
                card: reached.or_else(|| line_of(&file, code, argument[0])),
                changes,
            });
        }
        Ok(Run {
            file,
            steps,
            operations: follower.operations,
            messages: follower.messages,
            ticks,
        })
    }

    /// A copy's value at a tick.
    pub fn copy(&self, tick: usize, card: u8, register: u8) -> u32 {
        let mut held = self.file.held_by(card);
        let nth = held.position(|held| held == register);
        nth.map_or(0, |nth| {
            self.ticks[tick].cards[usize::from(card)].copies[nth]
        })
    }

    /// How many steps were taken, and how many refused.
    pub fn counts(&self) -> (usize, usize) {
        let taken = self.steps.iter().filter(|step| step.answer.is_ok()).count();
        (taken, self.steps.len() - taken)
    }
}

/// No picture is better than a wrong one.
fn otherwise(place: Place) -> String {
    format!("step {place}: the words of the store are not what its steps so far have made of them")
}

/// The card that a step names, or the home of the task that it names, if that is there.
fn line_of(file: &RunFile, code: u8, first: u8) -> Option<u8> {
    match code {
        6 | 7 | 9 => Some(first).filter(|&card| card < file.cards),
        1..=10 => file.homes.get(usize::from(first)).copied(),
        _ => None,
    }
}

fn changes(file: &RunFile, before: &Tick, after: &Tick) -> Vec<Change> {
    let mut changes = Vec::new();
    for (card, (was, is)) in (0..).zip(before.cards.iter().zip(&after.cards)) {
        for (register, (&was, &is)) in file.held_by(card).zip(was.copies.iter().zip(&is.copies)) {
            if was != is {
                changes.push(Change {
                    card,
                    register,
                    was,
                    is,
                });
            }
        }
    }
    changes
}

impl Tick {
    fn of(store: &Store, file: &RunFile, made: &[u32]) -> Tick {
        let card = |card: u8| CardTick {
            made: made[usize::from(card)],
            taken: store.broadcasts_taken(card),
            outbox: words::outbox(store, card).count(),
            inbox: words::inbox(store, card).count(),
            held: words::held(store, card).count(),
            copies: file
                .held_by(card)
                .map(|register| store.copy(card, register))
                .collect(),
        };
        let tasks = 0..file.homes.len() as u8;
        Tick {
            made: store.broadcasts(),
            cards: (0..file.cards).map(card).collect(),
            tasks: tasks.map(|task| store.task(task).number()).collect(),
        }
    }
}
