//! Where things lie in a diagram: a column for each step, a lane for each card. In a lane, from above:
//! rows of labels and of what leaves the card, its line with the marks, rows of values of copies, rows of
//! what reaches it. Each lane has as many rows as its run needs, so that no two things lie in one place.

use crate::run::{Id, Message, Place, Run};
use crate::said;

pub const PITCH: usize = 56;
/// Half of a mark's width, and of its height.
pub const HALF: usize = 24;
pub const RISE: usize = 9;
/// Values begin so far left of the middle, right of the line that enters there.
pub const BESIDE: usize = 10;
/// Above the lanes: the numbers of the places.
pub const HEAD: usize = 24;

const ROW: usize = 12;
const TRACK: usize = 15;
const GAP: usize = 16;
/// Four lines about a card stand beside its lane.
const LEAST: usize = 64;
/// The width of a letter of a label, at most.
const LETTER: usize = 6;

/// The middle of a place's column.
pub fn x(place: Place) -> usize {
    place * PITCH + PITCH / 2
}

/// Rows that are filled from the left.
#[derive(Default)]
struct Rows(Vec<usize>);

impl Rows {
    /// The first row that is free from here on; it is then taken up to there, both included.
    fn place(&mut self, from: usize, until: usize) -> usize {
        let free = self.0.iter().position(|&end| end < from);
        let row = free.unwrap_or_else(|| {
            self.0.push(0);
            self.0.len() - 1
        });
        self.0[row] = until;
        row
    }
}

pub struct Lane {
    /// How far down its upper end and its line are.
    pub top: usize,
    pub line: usize,
    /// Rows of values below its line.
    values: usize,
}

impl Lane {
    /// Where the text of a label lies.
    pub fn label(&self, row: usize) -> usize {
        self.above(row) + 3
    }

    pub fn above(&self, row: usize) -> usize {
        self.line - RISE - 8 - row * ROW
    }

    /// Where the text of a value lies.
    pub fn value(&self, row: usize) -> usize {
        self.line + RISE + ROW + row * ROW
    }

    pub fn below(&self, track: usize) -> usize {
        self.line + RISE + self.values * ROW + 11 + track * TRACK
    }
}

/// The rows of a message: in its outbox and on the way to its own card above the line, and at each
/// card that it reaches below that card's.
#[derive(Clone, Default)]
pub struct Tracks {
    pub outbox: usize,
    pub own: usize,
    pub arrivals: Vec<usize>,
}

pub struct Lanes {
    /// One for each card, and a last one if a step names no card that is there.
    pub lanes: Vec<Lane>,
    /// The row of each step's label, and of each of its values.
    pub labels: Vec<usize>,
    pub values: Vec<Vec<usize>>,
    pub tracks: Vec<Tracks>,
    pub width: usize,
    pub height: usize,
}

/// What takes a row of a lane, and from where to where.
struct Item {
    what: What,
    lane: usize,
    from: usize,
    until: usize,
}

#[derive(Clone, Copy)]
enum What {
    Label(Place),
    Value(Place),
    Outbox(Id),
    Own(Id),
    Arrival(Id, usize),
}

/// How wide a text is.
fn wide(text: &str) -> usize {
    text.len() * LETTER + LETTER
}

/// Labels and values of the steps.
fn texts(run: &Run, items: &mut Vec<Item>) {
    for (place, step) in run.steps.iter().enumerate() {
        let from = x(place) - HALF;
        items.push(Item {
            what: What::Label(place),
            lane: step.card.map_or(usize::from(run.file.cards), usize::from),
            from,
            until: from + wide(&said::label(run, place)),
        });
        let from = x(place) - BESIDE;
        items.extend(step.changes.iter().map(|change| Item {
            what: What::Value(place),
            lane: usize::from(change.card),
            from,
            until: from + wide(&said::value(change)),
        }));
    }
}

/// The parts of messages' ways that lie along a card's line.
fn ways(run: &Run, items: &mut Vec<Item>) {
    let end = run.steps.len();
    for (id, message) in run.messages.iter().enumerate() {
        let mut along = |what, card: u8, since, until| {
            items.push(Item {
                what,
                lane: usize::from(card),
                from: x(since),
                until: x(until),
            });
        };
        let dispatched = message.dispatched.map(|dispatched| dispatched.place);
        let sent = message.sent;
        along(
            What::Outbox(id),
            message.from,
            sent,
            dispatched.unwrap_or(end),
        );
        for (nth, arrival) in message.arrivals.iter().enumerate() {
            if let (true, Some(dispatched)) = (arrival.card == message.from, dispatched) {
                // One that is not taken is drawn less than a column long.
                let until = arrival.taken.unwrap_or(dispatched + 1);
                along(What::Own(id), arrival.card, dispatched, until);
            }
            if let (false, Some(taken)) = (arrival.dropped, arrival.taken) {
                let until = arrival.delivered.unwrap_or(end);
                along(What::Arrival(id, nth), arrival.card, taken, until);
            }
        }
    }
}

impl Lanes {
    pub fn of(run: &Run) -> Lanes {
        let mut items = Vec::new();
        texts(run, &mut items);
        ways(run, &mut items);
        items.sort_by_key(|item| item.from);

        let rows = || -> Vec<Rows> { (0..=run.file.cards).map(|_| Rows::default()).collect() };
        let (mut above, mut beside, mut below) = (rows(), rows(), rows());
        let mut labels = vec![0; run.steps.len()];
        let mut values = vec![Vec::new(); run.steps.len()];
        let none = |message: &Message| Tracks {
            arrivals: vec![0; message.arrivals.len()],
            ..Tracks::default()
        };
        let mut tracks: Vec<Tracks> = run.messages.iter().map(none).collect();
        for item in items {
            let rows = match item.what {
                What::Label(_) | What::Outbox(_) | What::Own(_) => &mut above[item.lane],
                What::Value(_) => &mut beside[item.lane],
                What::Arrival(..) => &mut below[item.lane],
            };
            let row = rows.place(item.from, item.until);
            match item.what {
                What::Label(place) => labels[place] = row,
                What::Value(place) => values[place].push(row),
                What::Outbox(id) => tracks[id].outbox = row,
                What::Own(id) => tracks[id].own = row,
                What::Arrival(id, nth) => tracks[id].arrivals[nth] = row,
            }
        }

        let mut top = HEAD;
        let mut lanes = Vec::new();
        for (above, (beside, below)) in above.iter().zip(beside.iter().zip(&below)) {
            let over = above.0.len() * ROW + RISE + 10;
            let under = RISE + beside.0.len() * ROW + below.0.len() * TRACK + GAP;
            lanes.push(Lane {
                top,
                line: top + over,
                values: beside.0.len(),
            });
            top += (over + under).max(LEAST);
        }
        if run.steps.iter().all(|step| step.card.is_some()) {
            top = lanes.pop().map_or(top, |lane| lane.top);
        }
        Lanes {
            lanes,
            labels,
            values,
            tracks,
            width: (run.steps.len() + 1) * PITCH,
            height: top + 4,
        }
    }
}

#[cfg(test)]
mod tests {
    use super::Rows;

    #[test]
    fn a_row_is_used_again_when_it_is_free() {
        let mut rows = Rows::default();
        let spans = [(1, 5), (2, 3), (4, 4), (5, 6), (6, 9)];
        let placed = spans.map(|(from, until)| rows.place(from, until));
        assert_eq!(placed, [0, 1, 1, 1, 0]);
    }
}
