//! The state of the store and its ten steps, written from docs/RULES.md alone, whose numbers the
//! comments cite.
//!
//! A step is first judged without touching the state (`decode`, then `judge`)
//! and then taken (`take`), so a refused step plainly changes nothing.

pub mod channel;
mod copies;
pub mod files;
#[cfg(test)]
mod found;
mod functions;
mod judge;
pub mod load;
pub mod placement;
pub mod results;
pub mod sized;
pub mod step;
pub mod tally;
#[cfg(test)]
mod tests;
pub mod totals;
pub mod write;

use channel::{Arrived, Body, Channel, Message};
pub use functions::{apply, FUNCTIONS};
use placement::Placement;
use results::{DONE, HELD};
use step::Step;

/// Numbers from 0 (RULES 1.3). A set of cards is a byte (1.5).
pub type Card = usize;
pub type Register = usize;
pub type TaskNumber = usize;
pub type Cards = u8;

/// A number of the table in RULES 8.2.
pub type Refusal = u8;

/// The most requests that are taken (RULES 7.8).
pub const REQUESTS: u32 = 65_535;

pub fn only(card: Card) -> Cards {
    1 << card
}

pub fn has(cards: Cards, card: Card) -> bool {
    cards & only(card) != 0
}

#[derive(Clone, Copy, Debug, PartialEq, Eq)]
pub enum Request {
    Read {
        register: Register,
    },
    Update {
        register: Register,
        function: u8,
        operand: u32,
    },
}

#[derive(Clone, Copy, Debug, PartialEq, Eq)]
pub enum Task {
    Quiet,
    Asking(Request),
    Waiting,
    /// With what it has to report.
    Done(Value),
}

/// What a task is done with and a reply brings it (RULES 1.8, 5.9); both are told apart, for 4 and 5
/// are two conditions, and 3 and 4 two kinds of message.
#[derive(Clone, Copy, Debug, PartialEq, Eq)]
pub enum Value {
    /// By a read.
    Read(u32),
    /// By an update: what the copy had just before it was applied.
    Found(u32),
}

impl Value {
    /// As it is answered (RULES 4.3).
    pub fn word(self) -> u32 {
        let (Value::Read(word) | Value::Found(word)) = self;
        word
    }
}

#[derive(Clone, Debug, PartialEq, Eq)]
pub struct State {
    pub placement: Placement,
    /// Register after register (RULES 11.8, where each has room for the copies of 8 cards).
    pub copies: Vec<u32>,
    pub tasks: Vec<Task>,
    /// Requests taken, of all tasks together.
    pub requests: u32,
    pub channel: Channel,
}

impl State {
    /// RULES 10.2 and 10.3.
    pub fn start(placement: Placement) -> Result<State, Refusal> {
        placement.judge()?;
        let cards = placement.cards as usize;
        let tasks = placement.home.len();
        Ok(State {
            copies: vec![0; cards * placement.registers.len()],
            tasks: vec![Task::Quiet; tasks],
            requests: 0,
            channel: Channel::new(cards, tasks),
            placement,
        })
    }

    /// One step on any state, refused in the order of RULES 8.5. Gives the result (RULES 4.2: 0 or
    /// 100 taken, else the refusal) and the value.
    pub fn step(&mut self, code: u8, argument: [u8; 8]) -> (u8, u32) {
        if !self.well_sized() {
            return (6, 0);
        }
        self.step_reached(code, argument)
    }

    /// The same for a state reached from a start, which is always well sized (RULES 8.9).
    pub fn step_reached(&mut self, code: u8, argument: [u8; 8]) -> (u8, u32) {
        match self.allowed(code, argument) {
            Ok(step) => self.take(step),
            Err(refusal) => (refusal, 0),
        }
    }

    /// The step, if the rules take it now.
    pub fn allowed(&self, code: u8, argument: [u8; 8]) -> Result<Step, Refusal> {
        let step = step::decode(code, argument, &self.placement)?;
        self.judge(step)?;
        Ok(step)
    }

    pub fn home(&self, task: TaskNumber) -> Card {
        self.placement.home[task] as usize
    }

    pub fn holders(&self, register: Register) -> Cards {
        self.placement.registers[register].holders
    }

    pub fn copy(&self, card: Card, register: Register) -> u32 {
        self.copies[register * self.placement.cards as usize + card]
    }

    fn copy_mut(&mut self, card: Card, register: Register) -> &mut u32 {
        &mut self.copies[register * self.placement.cards as usize + card]
    }

    /// Takes a step that `judge` allowed and gives result and value of the answer file (RULES 5.1 to
    /// 5.10, 4.2, 4.3).
    fn take(&mut self, step: Step) -> (u8, u32) {
        match step {
            Step::RequestRead { task, register } => {
                self.ask(task, Request::Read { register });
            }
            Step::RequestUpdate {
                task,
                register,
                function,
                operand,
            } => {
                let request = Request::Update {
                    register,
                    function,
                    operand,
                };
                self.ask(task, request);
            }
            Step::Perform { task } => {
                let home = self.home(task);
                let value = match self.request(task) {
                    Request::Read { register } => Value::Read(self.copy(home, register)),
                    Request::Update {
                        register,
                        function,
                        operand,
                    } => Value::Found(self.update(home, register, function, operand)),
                };
                self.tasks[task] = Task::Done(value);
            }
            Step::SendRead { task, chosen } => self.send_request(task, only(chosen)),
            Step::SendUpdate { task } => {
                let holders = match self.request(task) {
                    Request::Read { register } | Request::Update { register, .. } => {
                        self.holders(register)
                    }
                };
                self.send_request(task, holders);
            }
            Step::Dispatch { card } => self.channel.dispatch(card),
            Step::TakeBroadcast { card } => self.channel.take_broadcast(card),
            Step::TakeSingle { task } => {
                if self.channel.take_single(task) == Arrived::Held {
                    return (HELD, 0);
                }
            }
            Step::Deliver { card } => self.deliver(card),
            Step::Report { task } => {
                if let Task::Done(value) = self.tasks[task] {
                    self.tasks[task] = Task::Quiet;
                    return (DONE, value.word());
                }
            }
        }
        (DONE, 0)
    }

    fn ask(&mut self, task: TaskNumber, request: Request) {
        self.tasks[task] = Task::Asking(request);
        self.requests += 1;
    }

    fn request(&self, task: TaskNumber) -> Request {
        match self.tasks[task] {
            Task::Asking(request) => request,
            _ => unreachable!("judged to be asking"),
        }
    }

    /// RULES 5.4, 5.5: the message joins home's outbox, and the task waits.
    fn send_request(&mut self, task: TaskNumber, to: Cards) {
        let body = Body::Request(self.request(task));
        let home = self.home(task);
        self.channel.send(home, Message { task, to, body });
        self.tasks[task] = Task::Waiting;
    }

    /// Applies an update to a copy and gives the value found there.
    fn update(&mut self, card: Card, register: Register, function: u8, operand: u32) -> u32 {
        let copy = self.copy_mut(card, register);
        let found = *copy;
        *copy = apply(function, found, operand);
        found
    }

    /// The reply that delivering this message on this card sends, if any (RULES 5.9). The copy is as
    /// the message finds it.
    fn reply(&self, card: Card, message: &Message) -> Option<Message> {
        let task = message.task;
        let home = self.home(task);
        let value = match message.body {
            Body::Request(Request::Read { register }) => Value::Read(self.copy(card, register)),
            // Only the primary replies, and only to a home without a copy.
            Body::Request(Request::Update { register, .. }) => {
                let place = self.placement.registers[register];
                if has(place.holders, home) || place.primary as usize != card {
                    return None;
                }
                Value::Found(self.copy(card, register))
            }
            Body::Reply { .. } => return None,
        };
        Some(Message {
            task,
            to: only(home),
            body: Body::Reply { value },
        })
    }

    /// RULES 5.9.
    fn deliver(&mut self, card: Card) {
        let Some(message) = self.channel.inbox[card].pop_front() else {
            return;
        };
        if let Some(reply) = self.reply(card, &message) {
            self.channel.send(card, reply);
        }
        match message.body {
            Body::Request(Request::Read { .. }) => {}
            Body::Request(Request::Update {
                register,
                function,
                operand,
            }) => {
                let found = self.update(card, register, function, operand);
                if self.home(message.task) == card {
                    self.tasks[message.task] = Task::Done(Value::Found(found));
                }
            }
            Body::Reply { value } => self.tasks[message.task] = Task::Done(value),
        }
    }
}
