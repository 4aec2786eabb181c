//! What a diagram says of a run, as docs/PICTURES.md names it: steps, values and messages, each with the
//! attributes that its element must have.

use crate::model::results::{DONE, HELD};
use crate::model::{Card, Refusal, Register};

/// The number of an operation (RULES 12.4).
pub type Op = usize;

/// Where a step stands in its run.
pub type Place = usize;

/// Attributes that apply, with what they have.
pub type Attributes = Vec<(&'static str, String)>;

#[derive(Clone, Debug, Default, PartialEq, Eq)]
pub struct StepMark {
    pub place: Place,
    pub code: u8,
    pub result: Refusal,
    pub card: Option<Card>,
    pub op: Option<Op>,
    /// Operations of the messages that it releases.
    pub frees: Vec<Op>,
    pub value: Option<u32>,
}

#[derive(Clone, Copy, Debug, PartialEq, Eq)]
pub struct ValueMark {
    pub place: Place,
    pub card: Card,
    pub register: Register,
    pub value: u32,
    pub op: Op,
}

#[derive(Clone, Copy, Debug, PartialEq, Eq, PartialOrd, Ord)]
pub enum Kind {
    Read,
    Update,
    ReadReply,
    UpdateReply,
}

#[derive(Clone, Debug, PartialEq, Eq)]
pub struct MessageMark {
    pub op: Op,
    pub kind: Kind,
    pub from: Card,
    pub broadcast: Option<u32>,
    pub tag: Option<u32>,
    pub stages: Vec<Stage>,
}

#[derive(Clone, Copy, Debug, PartialEq, Eq, PartialOrd, Ord)]
pub enum Sort {
    Outbox,
    Flight,
    /// In flight to a card that is no destination.
    Dropped,
    Hold,
    Inbox,
}

/// A message at one of its places.
#[derive(Clone, Copy, Debug, PartialEq, Eq)]
pub struct Stage {
    pub sort: Sort,
    pub card: Card,
    pub since: Place,
    /// None if the run ends before.
    pub until: Option<Place>,
}

/// All that a diagram says of a run.
#[derive(Clone, Debug, Default, PartialEq, Eq)]
pub struct Marks {
    pub steps: Vec<StepMark>,
    pub values: Vec<ValueMark>,
    pub messages: Vec<MessageMark>,
}

pub const KINDS: [(Kind, &str); 4] = [
    (Kind::Read, "read"),
    (Kind::Update, "update"),
    (Kind::ReadReply, "read-reply"),
    (Kind::UpdateReply, "update-reply"),
];

pub const SORTS: [(Sort, &str); 5] = [
    (Sort::Outbox, "outbox"),
    (Sort::Flight, "flight"),
    (Sort::Dropped, "flight dropped"),
    (Sort::Hold, "hold"),
    (Sort::Inbox, "inbox"),
];

fn name<T: PartialEq>(names: &[(T, &'static str)], of: T) -> &'static str {
    let mut names = names.iter();
    names.find(|(other, _)| *other == of).expect("a name").1
}

fn one<T: ToString>(name: &'static str, value: T) -> (&'static str, String) {
    (name, value.to_string())
}

fn maybe<T: ToString>(name: &'static str, value: Option<T>) -> Option<(&'static str, String)> {
    value.map(|value| one(name, value))
}

impl StepMark {
    pub fn attributes(&self) -> Attributes {
        let kind = match self.result {
            DONE => "taken",
            HELD => "held",
            _ => "refused",
        };
        let frees: Vec<String> = self.frees.iter().map(|op| op.to_string()).collect();
        let frees = Some(frees.join(" ")).filter(|frees| !frees.is_empty());
        let mut attributes = vec![
            one("class", format!("step code{} {kind}", self.code)),
            one("id", format!("s{}", self.place)),
            one("data-place", self.place),
            one("data-code", self.code),
            one("data-result", self.result),
        ];
        attributes.extend(maybe("data-card", self.card));
        attributes.extend(maybe("data-op", self.op));
        attributes.extend(maybe("data-frees", frees));
        attributes.extend(maybe("data-value", self.value));
        attributes
    }
}

impl ValueMark {
    pub fn attributes(&self) -> Attributes {
        vec![
            one("class", "value"),
            one("data-place", self.place),
            one("data-card", self.card),
            one("data-register", self.register),
            one("data-value", self.value),
            one("data-op", self.op),
        ]
    }
}

impl MessageMark {
    pub fn attributes(&self) -> Attributes {
        let mut attributes = vec![
            one("class", "message"),
            one("data-op", self.op),
            one("data-kind", name(&KINDS, self.kind)),
            one("data-from", self.from),
        ];
        attributes.extend(maybe("data-broadcast", self.broadcast));
        attributes.extend(maybe("data-tag", self.tag));
        attributes
    }
}

impl Stage {
    pub fn attributes(&self) -> Attributes {
        let mut attributes = vec![
            one("class", name(&SORTS, self.sort)),
            one("data-card", self.card),
            one("data-since", self.since),
        ];
        attributes.extend(maybe("data-until", self.until));
        attributes
    }
}
