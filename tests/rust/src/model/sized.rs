//! Refusal 6 for the state (RULES 8.6). Only states made by hand can be so.
//!
//! A state of this model has no kind of message and no condition but those that there are, no
//! rings, no card past number 7 in a set, and no register of a reply. So the rest of 8.6 d, f, i
//! and j is tried on words alone (`by_hand::words`), and judged there by `memory::well_sized`.

use super::channel::{Body, Message, Tagged, BROADCASTS, HELD, INBOX, OUTBOX};
use super::placement::sizes_in_range;
use super::{Cards, Request, State, Task, FUNCTIONS, REQUESTS};

/// A part of 8.6, by its letter, and whether a state has that fault. Of a state with a size out of
/// range (8.6 a) nothing else is asked.
type Fault = (&'static str, fn(&State) -> bool);

pub const FAULTS: [Fault; 20] = [
    ("b: broadcasts made", |s| s.channel.made > BROADCASTS),
    ("b: requests taken", |s| s.requests > REQUESTS),
    ("c: an outbox", |s| {
        s.channel.outbox.iter().any(|queue| queue.len() > OUTBOX)
    }),
    ("c: an inbox", |s| {
        s.channel.inbox.iter().any(|queue| queue.len() > INBOX)
    }),
    ("c: messages held", |s| {
        s.channel.held.iter().any(|queue| queue.len() > HELD)
    }),
    ("d: a home", |s| {
        let mut homes = s.placement.home.iter();
        homes.any(|&home| !s.placement.present(home))
    }),
    ("d: holders", |s| {
        let mut places = s.placement.registers.iter();
        places.any(|place| s.absent_cards(place.holders))
    }),
    ("d: a primary", |s| {
        let mut places = s.placement.registers.iter();
        places.any(|place| !s.placement.present(place.primary))
    }),
    ("e: a register asked for", |s| {
        s.asked().any(|request| s.absent_register(request))
    }),
    ("e: a function asked for", |s| {
        s.asked().any(unknown_function)
    }),
    ("f: the task of a message", |s| {
        s.messages().any(|message| message.task >= s.tasks.len())
    }),
    ("f: the register of a message", |s| {
        s.sent().any(|request| s.absent_register(request))
    }),
    ("f: a destination of a message", |s| {
        s.messages().any(|message| s.absent_cards(message.to))
    }),
    ("f: the function of a message", |s| {
        s.sent().any(unknown_function)
    }),
    ("g: a tag", |s| {
        s.tagged().any(|tagged| tagged.tag > BROADCASTS)
    }),
    ("h: more taken than made", |s| {
        let mut taken = s.channel.taken.iter();
        taken.any(|&taken| taken > s.channel.made)
    }),
    ("h: too far behind", |s| {
        let channel = &s.channel;
        let mut taken = channel.taken.iter();
        taken.any(|&taken| channel.made.saturating_sub(taken) > channel.most_behind)
    }),
    ("i: a message to nobody", |s| {
        s.messages().any(|message| message.to == 0)
    }),
    // Those to nobody are under i.
    ("k: in flight to several cards", |s| {
        let mut flight = s.channel.flight.iter().flatten();
        flight.any(|single| single.message.is_broadcast())
    }),
    ("k: a broadcast to one card", |s| {
        let mut recent = s.channel.recent.iter();
        recent.any(|message| message.to.count_ones() == 1)
    }),
];

fn unknown_function(request: &Request) -> bool {
    match request {
        Request::Read { .. } => false,
        Request::Update { function, .. } => !FUNCTIONS.contains(function),
    }
}

impl State {
    pub fn well_sized(&self) -> bool {
        self.shaped() && !FAULTS.iter().any(|(_, has)| has(self))
    }

    /// The names of its faults; none of a well-sized state.
    pub fn faults(&self) -> Vec<&'static str> {
        if !self.shaped() {
            return vec!["a: a size"];
        }
        let faults = FAULTS.iter().filter(|(_, has)| has(self));
        faults.map(|&(name, _)| name).collect()
    }

    /// Sizes in range, and each table as long as they say.
    fn shaped(&self) -> bool {
        let cards = self.placement.cards as usize;
        let (registers, tasks) = (self.placement.registers.len(), self.placement.home.len());
        let channel = &self.channel;
        let by_card = [
            channel.taken.len(),
            channel.outbox.len(),
            channel.inbox.len(),
            channel.held.len(),
        ];
        sizes_in_range(cards, registers, tasks, 0)
            && self.copies.len() == cards * registers
            && self.tasks.len() == tasks
            && channel.flight.len() == tasks
            && by_card == [cards; 4]
            && channel.recent.len() == channel.made.min(channel.most_behind) as usize
    }

    fn absent_cards(&self, cards: Cards) -> bool {
        cards as u32 >= 1 << self.placement.cards
    }

    fn absent_register(&self, request: &Request) -> bool {
        let (Request::Read { register } | Request::Update { register, .. }) = request;
        *register >= self.placement.registers.len()
    }

    /// What tasks ask for.
    fn asked(&self) -> impl Iterator<Item = &Request> {
        self.tasks.iter().filter_map(|task| match task {
            Task::Asking(request) => Some(request),
            _ => None,
        })
    }

    fn tagged(&self) -> impl Iterator<Item = &Tagged> {
        let flight = self.channel.flight.iter().flatten();
        flight.chain(self.channel.held.iter().flatten())
    }

    fn messages(&self) -> impl Iterator<Item = &Message> {
        let channel = &self.channel;
        let queued = channel.outbox.iter().chain(&channel.inbox).flatten();
        let tagged = self.tagged().map(|tagged| &tagged.message);
        queued.chain(&channel.recent).chain(tagged)
    }

    /// Read messages and update messages.
    fn sent(&self) -> impl Iterator<Item = &Request> {
        self.messages().filter_map(|message| match &message.body {
            Body::Request(request) => Some(request),
            Body::Reply { .. } => None,
        })
    }
}

#[cfg(test)]
mod tests {
    use super::super::placement::Placement;
    use super::*;

    /// The faults of a state of two cards, two registers and two tasks after a change.
    fn after(change: impl Fn(&mut State)) -> Vec<&'static str> {
        let placement = Placement::new(2, &[0, 1], &[(3, 0), (2, 1)]);
        let mut state = State::start(placement).unwrap();
        change(&mut state);
        let before = state.clone();
        let faults = state.faults();
        let (result, _) = state.step(0, [0; 8]);
        assert_eq!(result, if faults.is_empty() { 10 } else { 6 });
        assert_eq!(state, before);
        faults
    }

    const FINE: [&str; 0] = [];

    fn message(task: usize, to: u8, register: usize) -> Message {
        let body = Body::Request(Request::Read { register });
        Message { task, to, body }
    }

    #[test]
    fn numbers() {
        assert_eq!(after(|_| {}), FINE);
        assert_eq!(after(|s| s.placement.cards = 9), ["a: a size"]);
        assert_eq!(after(|s| s.placement.home[1] = 2), ["d: a home"]);
        assert_eq!(
            after(|s| s.placement.registers[0].holders = 4),
            ["d: holders"]
        );
        assert_eq!(
            after(|s| s.placement.registers[0].primary = 2),
            ["d: a primary"]
        );
        assert_eq!(after(|s| s.placement.registers[0].holders = 0), FINE);
        assert_eq!(after(|s| s.placement.registers[1].primary = 0), FINE);
        assert_eq!(after(|s| s.requests = 65_535), FINE);
        assert_eq!(after(|s| s.requests = 65_536), ["b: requests taken"]);
        assert_eq!(
            after(|s| s.channel.taken[1] = 1),
            ["h: more taken than made"]
        );
    }

    #[test]
    fn broadcasts() {
        let of = |made: u32, taken: u32, to: u8| {
            after(|state| {
                state.channel.made = made;
                state.channel.recent = vec![message(0, to, 0); 24].into();
                state.channel.taken = vec![made, taken];
            })
        };
        assert_eq!(of(128, 104, 3), FINE);
        assert_eq!(of(128, 103, 3), ["h: too far behind"]);
        assert_eq!(of(24, 0, 3), FINE);
        assert_eq!(of(25, 0, 3), ["h: too far behind"]);
        assert_eq!(of(128, 128, 3), FINE);
        assert_eq!(of(128, 129, 3), ["h: more taken than made"]);
        assert_eq!(of(65_535, 65_535, 3), FINE);
        assert_eq!(of(65_536, 65_536, 3), ["b: broadcasts made"]);
        assert_eq!(of(128, 128, 2), ["k: a broadcast to one card"]);
    }

    #[test]
    fn queues() {
        let one = message(0, 1, 0);
        let tagged = |tag| Tagged { message: one, tag };
        assert_eq!(after(|s| s.channel.outbox[1] = vec![one; 16].into()), FINE);
        let past = after(|s| s.channel.outbox[1] = vec![one; 17].into());
        assert_eq!(past, ["c: an outbox"]);
        assert_eq!(after(|s| s.channel.inbox[1] = vec![one; 48].into()), FINE);
        let past = after(|s| s.channel.inbox[1] = vec![one; 49].into());
        assert_eq!(past, ["c: an inbox"]);
        assert_eq!(after(|s| s.channel.held[1] = vec![tagged(9); 16]), FINE);
        let past = after(|s| s.channel.held[1] = vec![tagged(9); 17]);
        assert_eq!(past, ["c: messages held"]);
        let flight = |tagged| after(|s| s.channel.flight[1] = Some(tagged));
        assert_eq!(flight(tagged(65_535)), FINE);
        assert_eq!(flight(tagged(65_536)), ["g: a tag"]);
        let both = Tagged {
            message: message(0, 3, 0),
            tag: 0,
        };
        assert_eq!(flight(both), ["k: in flight to several cards"]);
        assert_eq!(after(|s| s.channel.held[1] = vec![both]), FINE);
    }

    #[test]
    fn fields() {
        let queue = |m: Message| after(|state| state.channel.inbox[0].push_back(m));
        assert_eq!(queue(message(1, 3, 1)), FINE);
        assert_eq!(queue(message(2, 3, 1)), ["f: the task of a message"]);
        assert_eq!(queue(message(1, 4, 1)), ["f: a destination of a message"]);
        assert_eq!(queue(message(1, 0, 1)), ["i: a message to nobody"]);
        assert_eq!(queue(message(1, 3, 2)), ["f: the register of a message"]);
        let asked = |request| after(|s| s.tasks[0] = Task::Asking(request));
        let read = Request::Read { register: 2 };
        assert_eq!(asked(read), ["e: a register asked for"]);
        for (function, known) in [(0, false), (1, true), (5, true), (6, false)] {
            let update = Request::Update {
                register: 0,
                function,
                operand: 0,
            };
            let sent = Message {
                body: Body::Request(update),
                ..message(1, 3, 0)
            };
            let faults = [
                ("e: a function asked for", asked(update)),
                ("f: the function of a message", queue(sent)),
            ];
            for (name, found) in faults {
                assert_eq!(found, if known { vec![] } else { vec![name] });
            }
        }
    }
}
