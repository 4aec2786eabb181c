//! The way of a message in a diagram: from its outbox over the lines of other cards, held where it is
//! held, to the step that delivers it.

use std::fmt::Write;

use crate::lanes::{x, Lane, Lanes, Tracks, PITCH, RISE};
use crate::run::{Arrival, Dispatched, How, Message, Place, Run};
use crate::said;
use crate::svg::title;
use crate::words::Kind;

/// The ways of all messages, in the order in which they joined an outbox.
pub fn write(run: &Run, lanes: &Lanes, out: &mut String) {
    for (message, tracks) in run.messages.iter().zip(&lanes.tracks) {
        let kind = match message.packet.kind {
            Kind::Read => "read",
            Kind::Update => "update",
            Kind::ReadReply => "read-reply",
            Kind::UpdateReply => "update-reply",
        };
        let how = match message.dispatched.map(|dispatched| dispatched.how) {
            None => String::new(),
            Some(How::Broadcast(number)) => format!(" data-broadcast=\"{number}\""),
            Some(How::Single(tag)) => format!(" data-tag=\"{tag}\""),
        };
        let operation = said::operation(run, message.operation);
        let name = format!("{} of {operation}", said::kind(message.packet.kind));
        let _ = write!(
            out,
            "<g class=\"message\" data-op=\"{}\" data-kind=\"{kind}\" data-from=\"{}\"{how}>{}",
            message.operation,
            message.from,
            title(&name)
        );
        let mut way = Way {
            message,
            tracks,
            lanes,
            name,
            end: run.steps.len() * PITCH,
            out,
        };
        way.write();
        *out += "</g>\n";
    }
}

/// Lines enter a mark left of its middle and leave it right of it, so that those of one mark do not lie
/// on each other; the middle is for what a broadcast releases.
const ASIDE: usize = 14;

fn enters(place: Place) -> usize {
    x(place) - ASIDE
}

fn leaves(place: Place) -> usize {
    x(place) + ASIDE
}

/// How far a line goes of a message that no step of the run takes.
const STUB: usize = PITCH / 2;

struct Way<'a> {
    message: &'a Message,
    tracks: &'a Tracks,
    lanes: &'a Lanes,
    /// What the message is, for titles.
    name: String,
    /// The right end of the run.
    end: usize,
    out: &'a mut String,
}

impl<'a> Way<'a> {
    fn lane(&self, card: u8) -> &'a Lane {
        &self.lanes.lanes[usize::from(card)]
    }

    fn write(&mut self) {
        let (message, tracks) = (self.message, self.tracks);
        self.outbox();
        if let Some(dispatched) = message.dispatched {
            for (arrival, &track) in message.arrivals.iter().zip(&tracks.arrivals) {
                self.flight(dispatched, arrival);
                self.hold(dispatched, arrival, track);
                self.inbox(arrival, track);
            }
        }
    }

    /// A part of the way from one step to another, with its title.
    fn part(&mut self, class: &str, card: u8, span: (Place, Option<Place>), what: &str, d: &str) {
        let since = span.0;
        let (until, words) = match span.1 {
            Some(until) => (
                format!(" data-until=\"{until}\""),
                format!("until step {until}"),
            ),
            None => (String::new(), "on, at the end of the run still".into()),
        };
        let title = title(&format!("{}\n{what}, from step {since} {words}", self.name));
        let _ = write!(
            self.out,
            "<path class=\"{class}\" data-card=\"{card}\" data-since=\"{since}\"{until} d=\"{d}\">{title}</path>"
        );
    }

    /// The tip of an arrow into a mark, from above or from below.
    fn tip(&mut self, place: Place, (y, down): (usize, bool)) {
        let points = if down {
            "-4,-7 4,-7 0,0"
        } else {
            "-4,7 4,7 0,0"
        };
        let x = enters(place);
        let _ = write!(
            self.out,
            "<polygon class=\"tip\" points=\"{points}\" transform=\"translate({x} {y})\"/>"
        );
    }

    /// The end of a way that the run leaves open.
    fn open(&mut self, x: usize, y: usize) {
        let _ = write!(
            self.out,
            "<circle class=\"open\" cx=\"{x}\" cy=\"{y}\" r=\"3\"/>"
        );
    }

    fn outbox(&mut self) {
        let message = self.message;
        let lane = self.lane(message.from);
        let (top, y) = (lane.line - RISE, lane.above(self.tracks.outbox));
        let until = message.dispatched.map(|dispatched| dispatched.place);
        let start = format!("M{} {top}V{y}", leaves(message.sent));
        let d = match until {
            Some(until) => format!("{start}H{}V{top}", enters(until)),
            None => format!("{start}H{}", self.end),
        };
        let what = format!("in the outbox of card {}", message.from);
        self.part("outbox", message.from, (message.sent, until), &what, &d);
        if until.is_none() {
            self.open(self.end, y);
        }
    }

    /// From the step that dispatched it to the one that takes it.
    fn flight(&mut self, Dispatched { place, how }: Dispatched, arrival: &Arrival) {
        let card = arrival.card;
        let (class, what) = match how {
            How::Broadcast(number) if arrival.dropped => {
                let what = format!("broadcast {number}, to be dropped, on its way to card {card}");
                ("flight dropped", what)
            }
            How::Broadcast(number) => (
                "flight",
                format!("broadcast {number} on its way to card {card}"),
            ),
            How::Single(tag) => (
                "flight",
                format!("single message with tag {tag} on its way to card {card}"),
            ),
        };
        let span = (place, arrival.taken);
        let (from, to) = (self.lane(self.message.from), self.lane(card));
        if card == self.message.from {
            return self.home(from, span, class, &what);
        }
        let down = to.line > from.line;
        let (start, end) = match down {
            true => (from.line + RISE, to.line - RISE),
            false => (from.line - RISE, to.line + RISE),
        };
        let d = format!("M{} {start}L", leaves(place));
        match arrival.taken {
            Some(taken) => {
                self.part(
                    class,
                    card,
                    span,
                    &what,
                    &format!("{d}{} {end}", enters(taken)),
                );
                self.tip(taken, (end, down));
            }
            None => {
                let far = leaves(place) + STUB;
                let end = if down { start + STUB } else { start - STUB };
                self.part(class, card, span, &what, &format!("{d}{far} {end}"));
                self.open(far, end);
            }
        }
    }

    /// The same on one line: a broadcast to the card that made it.
    fn home(&mut self, lane: &Lane, span: (Place, Option<Place>), class: &str, what: &str) {
        let (card, place) = (self.message.from, span.0);
        let (top, y) = (lane.line - RISE, lane.above(self.tracks.own));
        let d = format!("M{} {top}V{y}H", leaves(place));
        match span.1 {
            Some(taken) => {
                self.part(
                    class,
                    card,
                    span,
                    what,
                    &format!("{d}{}V{top}", enters(taken)),
                );
                self.tip(taken, (top, true));
            }
            None => {
                let far = leaves(place) + STUB;
                self.part(class, card, span, what, &format!("{d}{far}"));
                self.open(far, y);
            }
        }
    }

    /// Held at the card that took it, until the step that releases it.
    fn hold(&mut self, dispatched: Dispatched, arrival: &Arrival, track: usize) {
        let (true, Some(taken), How::Single(tag)) = (arrival.held, arrival.taken, dispatched.how)
        else {
            return;
        };
        let lane = self.lane(arrival.card);
        let (bottom, y, from) = (lane.line + RISE, lane.below(track), leaves(taken));
        let until = arrival.released.map_or(self.end, x);
        let d = format!("M{from} {bottom}V{}H{until}V{}H{from}V{0}", y - 6, y + 6);
        let what = format!("held at card {} for broadcast {tag}", arrival.card);
        self.part("hold", arrival.card, (taken, arrival.released), &what, &d);
        // The whole of it if it fits.
        let words = format!("held for broadcast {tag}");
        let words = match until - from > words.len() * 6 + 24 {
            true => &words,
            false => "held",
        };
        let _ = write!(
            self.out,
            "<text class=\"holds\" x=\"{}\" y=\"{}\">{words}</text>",
            from + 6,
            y + 3
        );
        match arrival.released {
            None => self.open(until, y),
            Some(_) => {
                let _ = write!(
                    self.out,
                    "<polyline class=\"release\" points=\"{until},{bottom} {until},{y}\"/>\
                     <circle class=\"release\" cx=\"{until}\" cy=\"{y}\" r=\"4.5\"/>"
                );
            }
        }
    }

    /// In the inbox of the card that took it, until it is delivered.
    fn inbox(&mut self, arrival: &Arrival, track: usize) {
        let Some(joined) = arrival.joined() else {
            return;
        };
        let lane = self.lane(arrival.card);
        let (bottom, y) = (lane.line + RISE, lane.below(track));
        let start = match arrival.held {
            true => format!("M{} {y}", x(joined)),
            false => format!("M{} {bottom}V{y}", leaves(joined)),
        };
        let d = match arrival.delivered {
            Some(delivered) => format!("{start}H{}V{bottom}", enters(delivered)),
            None => format!("{start}H{}", self.end),
        };
        let what = format!("in the inbox of card {}", arrival.card);
        self.part(
            "inbox",
            arrival.card,
            (joined, arrival.delivered),
            &what,
            &d,
        );
        match arrival.delivered {
            Some(delivered) => self.tip(delivered, (bottom, false)),
            None => self.open(self.end, y),
        }
    }
}
