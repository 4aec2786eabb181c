//! Messages by their numbers, beside the model, whose messages have none: each queue of the model has here a
//! queue of numbers, moved by the rules of chapters 5 and 6 and held to the model's after each step.

use std::collections::VecDeque;

use super::marks::{Kind, MessageMark, Op, Place, Sort, Stage};
use crate::model::channel::{Body, Message};
use crate::model::{has, Card, Cards, Request, State, TaskNumber, Value};

/// The way of a message to one card.
#[derive(Clone, Debug)]
struct Way {
    flight: Stage,
    hold: Option<Stage>,
    inbox: Option<Stage>,
}

#[derive(Clone, Debug)]
struct Followed {
    op: Op,
    task: TaskNumber,
    kind: Kind,
    to: Cards,
    broadcast: Option<u32>,
    tag: Option<u32>,
    outbox: Stage,
    /// Of a broadcast one for each card, of a single message one.
    ways: Vec<Way>,
}

/// A message by its place among those that joined an outbox.
type Number = usize;

pub struct Messages {
    all: Vec<Followed>,
    /// By number, from 1.
    broadcasts: Vec<Number>,
    /// By card.
    taken: Vec<u32>,
    outbox: Vec<VecDeque<Number>>,
    inbox: Vec<VecDeque<Number>>,
    held: Vec<Vec<Number>>,
    /// By task.
    flight: Vec<Option<Number>>,
}

fn kind(message: &Message) -> Kind {
    match message.body {
        Body::Request(Request::Read { .. }) => Kind::Read,
        Body::Request(Request::Update { .. }) => Kind::Update,
        Body::Reply { value } => match value {
            Value::Read(_) => Kind::ReadReply,
            Value::Found(_) => Kind::UpdateReply,
        },
    }
}

fn since(sort: Sort, card: Card, since: Place) -> Stage {
    let until = None;
    Stage {
        sort,
        card,
        since,
        until,
    }
}

fn end(stage: &mut Option<Stage>, place: Place) {
    let stage = stage.as_mut().expect("a message that is there");
    stage.until = Some(place);
}

impl Messages {
    pub fn new(cards: usize, tasks: usize) -> Messages {
        Messages {
            all: Vec::new(),
            broadcasts: Vec::new(),
            taken: vec![0; cards],
            outbox: vec![VecDeque::new(); cards],
            inbox: vec![VecDeque::new(); cards],
            held: vec![Vec::new(); cards],
            flight: vec![None; tasks],
        }
    }

    /// A message of an operation joins a card's outbox, by a step 4, 5 or 9.
    pub fn joins(&mut self, op: Op, card: Card, message: &Message, place: Place) {
        self.outbox[card].push_back(self.all.len());
        self.all.push(Followed {
            op,
            task: message.task,
            kind: kind(message),
            to: message.to,
            broadcast: None,
            tag: None,
            outbox: since(Sort::Outbox, card, place),
            ways: Vec::new(),
        });
    }

    /// Step 6 (RULES 5.6, 6.1 to 6.3). Gives the operation.
    pub fn dispatched(&mut self, card: Card, place: Place) -> Op {
        let number = self.outbox[card].pop_front().expect("a message to send");
        let cards = self.taken.len();
        let message = &mut self.all[number];
        message.outbox.until = Some(place);
        let several = message.to.count_ones() > 1;
        let to = message.to;
        let reached = (0..cards).filter(|&other| several || has(to, other));
        let way = |other: Card| {
            let sort = match has(to, other) {
                true => Sort::Flight,
                false => Sort::Dropped,
            };
            Way {
                flight: since(sort, other, place),
                hold: None,
                inbox: None,
            }
        };
        message.ways = reached.map(way).collect();
        if several {
            self.broadcasts.push(number);
            message.broadcast = Some(self.broadcasts.len() as u32);
        } else {
            message.tag = Some(self.taken[card]);
            let flight = &mut self.flight[message.task];
            assert_eq!(flight.replace(number), None, "two of a task in flight");
        }
        message.op
    }

    /// Step 7 (RULES 5.7, 6.5). Gives the operation, and those that it frees.
    pub fn broadcast_taken(&mut self, card: Card, place: Place) -> (Op, Vec<Op>) {
        let number = self.broadcasts[self.taken[card] as usize];
        self.taken[card] += 1;
        let message = &mut self.all[number];
        let op = message.op;
        let way = &mut message.ways[card];
        way.flight.until = Some(place);
        if has(message.to, card) {
            way.inbox = Some(since(Sort::Inbox, card, place));
            self.inbox[card].push_back(number);
        }
        let mut frees = Vec::new();
        for number in std::mem::take(&mut self.held[card]) {
            let message = &mut self.all[number];
            if message.tag != Some(self.taken[card]) {
                self.held[card].push(number);
                continue;
            }
            frees.push(message.op);
            end(&mut message.ways[0].hold, place);
            message.ways[0].inbox = Some(since(Sort::Inbox, card, place));
            self.inbox[card].push_back(number);
        }
        (op, frees)
    }

    /// Step 8 (RULES 5.8): held or not. Gives the operation and the card that it reaches.
    pub fn single_taken(&mut self, task: TaskNumber, held: bool, place: Place) -> (Op, Card) {
        let number = self.flight[task].take().expect("a message in flight");
        let message = &mut self.all[number];
        let way = &mut message.ways[0];
        let card = way.flight.card;
        way.flight.until = Some(place);
        if held {
            way.hold = Some(since(Sort::Hold, card, place));
            self.held[card].push(number);
        } else {
            way.inbox = Some(since(Sort::Inbox, card, place));
            self.inbox[card].push_back(number);
        }
        (message.op, card)
    }

    /// Step 9. Gives the operation.
    pub fn delivered(&mut self, card: Card, place: Place) -> Op {
        let number = self.inbox[card].pop_front().expect("a message to deliver");
        let message = &mut self.all[number];
        let mut ways = message.ways.iter_mut();
        let way = ways.find(|way| way.flight.card == card);
        end(&mut way.expect("a way to this card").inbox, place);
        message.op
    }

    /// How many messages are in a card's outbox.
    pub fn waiting(&self, card: Card) -> usize {
        self.outbox[card].len()
    }

    /// Fails where the model has another message anywhere, or has one more or less.
    pub fn same(&self, state: &State) {
        let channel = &state.channel;
        let here = |number: &Number| {
            let Followed { task, kind, to, .. } = self.all[*number];
            (task, kind, to)
        };
        let there = |message: &Message| (message.task, kind(message), message.to);
        for card in 0..self.taken.len() {
            assert!(self.outbox[card]
                .iter()
                .map(here)
                .eq(channel.outbox[card].iter().map(there)));
            assert!(self.inbox[card]
                .iter()
                .map(here)
                .eq(channel.inbox[card].iter().map(there)));
            let held = channel.held[card].iter();
            let held = held.map(|held| (there(&held.message), Some(held.tag)));
            let mine = self.held[card].iter();
            assert!(mine
                .map(|number| (here(number), self.all[*number].tag))
                .eq(held));
        }
        let flight = channel.flight.iter();
        let flight =
            flight.map(|single| single.map(|single| (there(&single.message), Some(single.tag))));
        let mine = self.flight.iter();
        let mine = mine.map(|number| number.map(|number| (here(&number), self.all[number].tag)));
        assert!(mine.eq(flight));
        assert_eq!(self.taken, channel.taken);
        assert_eq!(self.broadcasts.len(), channel.made as usize);
        let recent = channel.recent.iter().rev().map(there);
        assert!(recent.eq(self
            .broadcasts
            .iter()
            .rev()
            .take(channel.recent.len())
            .map(here)));
    }

    /// In the order in which they joined.
    pub fn marks(&self) -> Vec<MessageMark> {
        let marks = self.all.iter().map(|message| {
            let ways = message.ways.iter();
            let ways = ways.flat_map(|way| [Some(way.flight), way.hold, way.inbox]);
            MessageMark {
                op: message.op,
                kind: message.kind,
                from: message.outbox.card,
                broadcast: message.broadcast,
                tag: message.tag,
                stages: [message.outbox].into_iter().chain(ways.flatten()).collect(),
            }
        });
        marks.collect()
    }
}
