//! Guided runs with an aim: each limit of RULES 7 that a run can meet is reached from a placement
//! made for it.

use super::guide::{Mood, Script};
use super::{any_placement, length, placement};
use crate::model::channel::BEHIND;
use crate::model::files::Run;
use crate::model::placement::{Place, Placement};
use crate::model::State;
use crate::random::Random;

pub fn guided(random: &mut Random) -> Run {
    let placement = any_placement(random);
    let most = length(random);
    Script::new(placement, most).finish(random)
}

/// Every size at its most.
pub fn longest(random: &mut Random) -> Run {
    let placement = placement(random, 8, 32, 16);
    Script::new(placement, 4_096).finish(random)
}

/// The home of task 0 is late: for a while it takes nothing and its tasks only read, then it
/// delivers slowly. Register 0 is everywhere, register 1 on a single card.
pub fn tiny(random: &mut Random) -> Run {
    let (cards, registers) = (random.byte(2, 3), random.between(2, 3));
    let tasks = random.between(2, 3);
    let mut placement = placement(random, cards, registers, tasks);
    placement.registers[0].holders = (1 << cards) - 1;
    placement.registers[1].holders = 1 << placement.registers[1].primary;
    let late = 1 << placement.home[0];
    let mut script = Script::new(placement, random.between(10, 200));
    let mut mood = Mood::even(1);
    for _ in 0..4 {
        mood.no_take = late;
        mood.no_update = late;
        mood.weights[9] = 4;
        let steps = random.between(1, 60);
        script.stretch(random, &mood, steps);
        mood.no_take = 0;
        mood.weights[9] = 1;
        let steps = random.between(1, 30);
        script.stretch(random, &mood, steps);
        mood.no_update = 0;
        let steps = random.between(0, 30);
        script.stretch(random, &mood, steps);
    }
    script.finish(random)
}

/// A card in focus takes nothing until no broadcast passes any more.
pub fn behind(random: &mut Random) -> Run {
    let tasks = random.between(1, 16);
    let mut scene = Scene::new(random, 8, tasks, 2_400);
    scene.fall_behind(random);
    scene.script.finish(random)
}

/// All tasks are at home on one card, which dispatches nothing.
pub fn requests(random: &mut Random) -> Run {
    let mut placement = around(random, 8, 16).0;
    let home = placement.home[0];
    placement.home.fill(home);
    let mut script = Script::new(placement, random.between(80, 600));
    let mut mood = broadcasts_only();
    if random.percent(50) {
        mood = Mood::even(0);
        mood.registers = ALONE;
    }
    mood.no_dispatch = 1 << home;
    script.go_on(random, &mood);
    script.finish(random)
}

/// All tasks ask a card in focus, which dispatches no reply.
pub fn replies(random: &mut Random) -> Run {
    let most = random.between(120, 600);
    let mut scene = Scene::new(random, 8, 16, most);
    scene.keep_replies(random);
    scene.script.finish(random)
}

/// An inbox gets all it can; with `hold` the single messages are held before.
pub fn inbox(random: &mut Random, hold: bool) -> Run {
    let mut scene = Scene::new(random, 8, 16, 2_000);
    if hold && random.percent(50) {
        scene.hold_many_tags(random);
    } else {
        let broadcasts = random.pick(&[32, 32, 33, 40]);
        scene.fill_inbox(random, broadcasts, hold);
    }
    scene.script.finish(random)
}

/// A file of 4,096 steps in which every limit is reached and every refusal occurs that a file
/// can cause.
pub fn full(random: &mut Random) -> Run {
    let mut scene = Scene::new(random, 4, 16, 4_096);
    scene.keep_replies(random);
    scene.script.careless(random, 200);
    scene.drain(random);
    scene.try_refusals();
    scene.fall_behind(random);
    scene.drain(random);
    scene.fill_inbox(random, 32, true);
    scene.drain(random);
    scene.fill_inbox(random, 40, false);
    scene.script.careless(random, 200);
    scene.script.finish(random)
}

const SHARED: u32 = 0x5555_5555;
const ALONE: u32 = 0xAAAA_AAAA;

/// A placement around a card in focus: no task is at home there. Registers with an even number
/// have a copy there and on other cards, one of which is primary; the odd ones lie there alone.
fn around(random: &mut Random, most_cards: u8, tasks: usize) -> (Placement, u8) {
    let cards = random.byte(2, most_cards);
    let focus = random.byte(0, cards - 1);
    let others = ((1u32 << cards) - 1) as u8 & !(1 << focus);
    let place = |random: &mut Random, register: usize| {
        if register % 2 == 1 {
            return Place {
                holders: 1 << focus,
                primary: focus,
            };
        }
        let primary = random.member(others as u32) as u8;
        let more = random.byte(0, 255) & others;
        Place {
            holders: 1 << focus | 1 << primary | more,
            primary,
        }
    };
    let registers = random.between(2, 32);
    let home = (0..tasks).map(|_| random.member(others as u32) as u8);
    let placement = Placement {
        cards,
        home: home.collect(),
        registers: (0..registers).map(|i| place(random, i)).collect(),
    };
    (placement, focus)
}

/// Only updates, of registers on several cards.
fn broadcasts_only() -> Mood {
    let mut mood = Mood::even(0);
    mood.weights[1] = 0;
    mood.registers = SHARED;
    mood
}

/// The weight of both requests.
fn set_requests(mood: &mut Mood, weight: usize) {
    mood.weights[1] = weight;
    mood.weights[2] = weight;
}

/// A run that brings a card in focus to its limits.
struct Scene {
    script: Script,
    focus: u8,
}

impl Scene {
    fn new(random: &mut Random, most_cards: u8, tasks: usize, most: usize) -> Scene {
        let (placement, focus) = around(random, most_cards, tasks);
        Scene {
            script: Script::new(placement, most),
            focus,
        }
    }

    /// Tries a code on every card.
    fn try_cards(&mut self, code: u8) {
        for card in 0..self.script.state.placement.cards {
            self.script.push((code, [card, 0, 0, 0, 0, 0, 0, 0]));
        }
    }

    /// In a drained store: 10 to 15, 21, a request of register 1, 20, 22, and 30 to 33.
    fn try_refusals(&mut self) {
        let focus = self.focus;
        let steps = [
            (0, [0, 0, 0]),
            (1, [0, 0, 1]),
            (1, [255, 0, 0]),
            (1, [0, 255, 0]),
            (6, [255, 0, 0]),
            (2, [0, 0, 0]),
            (3, [0, 0, 0]),
            (1, [0, 1, 0]),
            (1, [0, 1, 0]),
            (3, [0, 0, 0]),
            (6, [focus, 0, 0]),
            (7, [focus, 0, 0]),
            (8, [0, 0, 0]),
            (9, [focus, 0, 0]),
        ];
        for (code, [a, b, c]) in steps {
            self.script.push((code, [a, b, c, 0, 0, 0, 0, 0]));
        }
    }

    /// Finishes every operation and empties every queue.
    fn drain(&mut self, random: &mut Random) {
        let mut mood = Mood::even(0);
        set_requests(&mut mood, 0);
        self.script.go_on(random, &mood);
    }

    /// The card takes nothing, until every task waits for a broadcast that can't be made.
    fn fall_behind(&mut self, random: &mut Random) {
        let mood = Mood {
            no_take: 1 << self.focus,
            ..broadcasts_only()
        };
        self.script.go_on(random, &mood);
        self.try_cards(6);
    }

    /// The card answers every task and dispatches nothing.
    fn keep_replies(&mut self, random: &mut Random) {
        let mood = Mood {
            no_dispatch: 1 << self.focus,
            registers: ALONE,
            ..Mood::even(0)
        };
        self.script.go_on(random, &mood);
    }

    /// The card delivers nothing: broadcasts reach it, then a single message of every task.
    /// With `hold` it does not take the last broadcasts before, as many as it can be behind, so that
    /// the single messages are held. Past 32 broadcasts they are held too, for those that the inbox
    /// has no room for.
    fn fill_inbox(&mut self, random: &mut Random, broadcasts: u32, hold: bool) {
        let mut mood = broadcasts_only();
        mood.no_deliver = 1 << self.focus;
        let waiting = if hold { BEHIND } else { 0 };
        self.broadcast(random, &mood, broadcasts - waiting);
        mood.no_take = (hold as u8) << self.focus;
        self.broadcast(random, &mood, waiting);
        set_requests(&mut mood, 4);
        mood.registers = ALONE;
        self.script.go_on(random, &mood);
        set_requests(&mut mood, 0);
        self.take_without_delivery(random, mood);
    }

    /// So many requests in this mood, and all that the mood lets come of them.
    fn broadcast(&mut self, random: &mut Random, mood: &Mood, count: u32) {
        let requests = self.script.state.requests + count;
        let asked = |state: &State| state.requests == requests;
        self.script.go(random, mood, asked);
        let mut rest = mood.clone();
        set_requests(&mut rest, 0);
        self.script.go_on(random, &rest);
    }

    /// The card takes nothing, and single messages with many tags come between broadcasts.
    fn hold_many_tags(&mut self, random: &mut Random) {
        let mut mood = broadcasts_only();
        mood.registers = SHARED | ALONE;
        mood.no_deliver = 1 << self.focus;
        mood.no_take = 1 << self.focus;
        self.script.go_on(random, &mood);
        self.take_without_delivery(random, mood);
    }

    /// What the card takes comes with what it held, until its inbox has no room for more
    /// broadcasts; then each delivery makes room for one.
    fn take_without_delivery(&mut self, random: &mut Random, mut mood: Mood) {
        mood.no_take = 0;
        self.script.go_on(random, &mood);
        self.try_cards(7);
        let focus = [self.focus, 0, 0, 0, 0, 0, 0, 0];
        for _ in 0..random.between(0, 10) {
            self.script.push((9, focus));
            self.script.push((7, focus));
        }
    }
}
