//! Which message is where. The words of a store say what lies in a queue, and not since when; so
//! beside each queue goes one of the messages' numbers, moved as RULES 5 says, and after every step
//! the two are held together.

use std::collections::VecDeque;

use gondzselu::{Function, Step, Store, Taken as Answer};

use crate::file::{cards_of, in_set, RunFile};
use crate::run::{Arrival, Dispatched, Effect, How, Id, Message, Number, Operation, Place, Taken};
use crate::words;

pub struct Follower<'a> {
    homes: &'a [u8],
    pub operations: Vec<Operation>,
    pub messages: Vec<Message>,
    /// Broadcasts that each card made.
    pub made: Vec<u32>,
    /// Each task's last operation.
    open: Vec<Number>,
    outbox: Vec<VecDeque<Id>>,
    inbox: Vec<VecDeque<Id>>,
    held: Vec<Vec<(Id, u32)>>,
    flight: Vec<Option<(Id, u32)>>,
    /// By number, from 1.
    broadcasts: Vec<Id>,
}

impl<'a> Follower<'a> {
    pub fn new(file: &RunFile<'a>) -> Follower<'a> {
        let (cards, tasks) = (usize::from(file.cards), file.homes.len());
        Follower {
            homes: file.homes,
            operations: Vec::new(),
            messages: Vec::new(),
            made: vec![0; cards],
            open: vec![0; tasks],
            outbox: vec![VecDeque::new(); cards],
            inbox: vec![VecDeque::new(); cards],
            held: vec![Vec::new(); cards],
            flight: vec![None; tasks],
            broadcasts: Vec::new(),
        }
    }

    /// Moves on by a taken step, with the store after it; none where its words do not follow.
    pub fn follow(
        &mut self,
        place: Place,
        step: Step,
        answer: Answer,
        store: &Store,
    ) -> Option<Taken> {
        let (operation, effect) = match step {
            Step::RequestRead { task, register } => {
                (self.opens(task, register, None), Effect::Opens)
            }
            Step::RequestUpdate {
                task,
                register,
                function,
                operand,
            } => {
                let update = Some((function, operand));
                (self.opens(task, register, update), Effect::Opens)
            }
            Step::Perform { task } => (self.open_for(task), Effect::Performs),
            Step::SendRead { task, .. } | Step::SendUpdate { task } => {
                let (card, operation) = (self.homes[usize::from(task)], self.open_for(task));
                let message = self.joins(place, card, operation, store)?;
                (operation, Effect::Sends(message))
            }
            Step::Dispatch { card } => {
                let message = self.outbox[usize::from(card)].pop_front()?;
                self.dispatches(place, card, message, store)?;
                (
                    self.messages[message].operation,
                    Effect::Dispatches(message),
                )
            }
            Step::TakeBroadcast { card } => {
                let (message, released) = self.takes(place, card, store)?;
                let operation = self.messages[message].operation;
                (operation, Effect::Takes(message, released))
            }
            Step::TakeSingle { task } => {
                let message = self.reaches(place, task, answer.held)?;
                let operation = self.messages[message].operation;
                (operation, Effect::Reaches(message, answer.held))
            }
            Step::Deliver { card } => {
                let message = self.inbox[usize::from(card)].pop_front()?;
                let operation = self.messages[message].operation;
                self.arrival(message, card)?.delivered = Some(place);
                let replies =
                    words::outbox(store, card).count() > self.outbox[usize::from(card)].len();
                let reply = match replies {
                    true => Some(self.joins(place, card, operation, store)?),
                    false => None,
                };
                (operation, Effect::Delivers(message, reply))
            }
            Step::Report { task } => (self.open_for(task), Effect::Reports(answer.value)),
        };
        Some(Taken { operation, effect })
    }

    /// The card that a single message reached.
    pub fn reached(&self, taken: &Taken) -> Option<u8> {
        match taken.effect {
            Effect::Reaches(message, _) => Some(self.messages[message].arrivals[0].card),
            _ => None,
        }
    }

    fn open_for(&self, task: u8) -> Number {
        self.open[usize::from(task)]
    }

    fn opens(&mut self, task: u8, register: u8, update: Option<(Function, u32)>) -> Number {
        let number = self.operations.len();
        self.open[usize::from(task)] = number;
        self.operations.push(Operation {
            task,
            register,
            update,
        });
        number
    }

    /// A message joined a card's outbox: the last one there.
    fn joins(&mut self, place: Place, card: u8, operation: Number, store: &Store) -> Option<Id> {
        let packet = words::outbox(store, card).last()??;
        let id = self.messages.len();
        self.messages.push(Message {
            operation,
            packet,
            from: card,
            sent: place,
            dispatched: None,
            arrivals: Vec::new(),
        });
        self.outbox[usize::from(card)].push_back(id);
        Some(id)
    }

    /// Broadcasts made tell whether it became one.
    fn dispatches(&mut self, place: Place, card: u8, id: Id, store: &Store) -> Option<()> {
        let to = self.messages[id].packet.to;
        let (how, arrivals) = if store.broadcasts() as usize > self.broadcasts.len() {
            self.broadcasts.push(id);
            self.made[usize::from(card)] += 1;
            let cards = 0..self.made.len() as u8;
            let arrivals = cards.map(|card| Arrival::to(card, !in_set(to, card)));
            (How::Broadcast(store.broadcasts()), arrivals.collect())
        } else {
            let task = self.messages[id].packet.task;
            let (_, tag) = words::in_flight(store, task)?;
            self.flight[usize::from(task)] = Some((id, tag));
            let destination = cards_of(to).next()?;
            (How::Single(tag), vec![Arrival::to(destination, false)])
        };
        let message = &mut self.messages[id];
        message.dispatched = Some(Dispatched { place, how });
        message.arrivals = arrivals;
        Some(())
    }

    fn arrival(&mut self, message: Id, card: u8) -> Option<&mut Arrival> {
        let mut arrivals = self.messages[message].arrivals.iter_mut();
        arrivals.find(|arrival| arrival.card == card)
    }

    /// The next broadcast, and behind it those that it releases.
    fn takes(&mut self, place: Place, card: u8, store: &Store) -> Option<(Id, Vec<Id>)> {
        let number = store.broadcasts_taken(card);
        let message = *self.broadcasts.get((number as usize).checked_sub(1)?)?;
        let arrival = self.arrival(message, card)?;
        arrival.taken = Some(place);
        let mut joining = Vec::new();
        if !arrival.dropped {
            joining.push(message);
        }
        let held = &mut self.held[usize::from(card)];
        let released: Vec<Id> = held
            .iter()
            .filter(|held| held.1 == number)
            .map(|held| held.0)
            .collect();
        held.retain(|held| held.1 != number);
        for &message in &released {
            self.arrival(message, card)?.released = Some(place);
            joining.push(message);
        }
        self.inbox[usize::from(card)].extend(joining);
        Some((message, released))
    }

    fn reaches(&mut self, place: Place, task: u8, held: bool) -> Option<Id> {
        let (message, tag) = self.flight[usize::from(task)].take()?;
        let arrival = self.messages[message].arrivals.first_mut()?;
        (arrival.taken, arrival.held) = (Some(place), held);
        let card = usize::from(arrival.card);
        match held {
            true => self.held[card].push((message, tag)),
            false => self.inbox[card].push_back(message),
        }
        Some(message)
    }

    /// Whether each queue of the store has the messages that are followed there.
    pub fn agrees_with(&self, store: &Store) -> bool {
        let packet = |&id: &Id| Some(self.messages[id].packet);
        let tagged = |&(id, tag): &(Id, u32)| Some((self.messages[id].packet, tag));
        let cards = (0..).zip(self.outbox.iter().zip(self.inbox.iter().zip(&self.held)));
        let mut tasks = (0..).zip(&self.flight);
        let mut cards = cards.map(|(card, (outbox, (inbox, held)))| {
            outbox.iter().map(packet).eq(words::outbox(store, card))
                && inbox.iter().map(packet).eq(words::inbox(store, card))
                && held.iter().map(tagged).eq(words::held(store, card))
        });
        cards.all(|same| same)
            && tasks.all(|(task, flight)| {
                flight.as_ref().and_then(tagged) == words::in_flight(store, task)
            })
            && store.broadcasts() as usize == self.broadcasts.len()
    }
}
