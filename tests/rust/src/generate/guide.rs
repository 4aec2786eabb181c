//! Runs in which the model picks the steps: mostly allowed moves, weighed by a mood.

use super::{about_the_top, known_function, near, operand};
use crate::model::files::{RawStep, Run};
use crate::model::placement::Placement;
use crate::model::{has, Cards, Request, State, Task};
use crate::random::Random;
use crate::steps::request_update;

/// What is likely for a while.
#[derive(Clone, Debug)]
pub struct Mood {
    /// By code: the weight of an allowed move.
    pub weights: [usize; 11],
    /// Cards that dispatch nothing, take no broadcast, deliver nothing.
    pub no_dispatch: Cards,
    pub no_take: Cards,
    pub no_deliver: Cards,
    /// Cards whose tasks ask only for reads.
    pub no_update: Cards,
    /// The registers that requests are about (bit i for register i).
    pub registers: u32,
    /// Of a hundred steps, how many are picked without looking at the state.
    pub careless: usize,
}

impl Mood {
    /// Every move likely, on all registers.
    pub fn even(careless: usize) -> Mood {
        Mood {
            weights: [4; 11],
            no_dispatch: 0,
            no_take: 0,
            no_deliver: 0,
            no_update: 0,
            registers: u32::MAX,
            careless,
        }
    }

    pub fn any(random: &mut Random) -> Mood {
        let careless = random.pick(&[0, 2, 5, 20]);
        let mut mood = Mood::even(careless);
        for weight in &mut mood.weights {
            *weight = random.pick(&[1, 1, 4, 4, 16]);
        }
        let some = |random: &mut Random| match random.percent(30) {
            true => random.byte(0, 255) & random.byte(0, 255),
            false => 0,
        };
        mood.no_dispatch = some(random);
        mood.no_take = some(random);
        mood.no_deliver = some(random);
        if random.percent(30) {
            mood.registers = random.bits() as u32;
        }
        mood
    }
}

/// A run that is being written, and the state it has led to.
pub struct Script {
    pub state: State,
    steps: Vec<RawStep>,
    most: usize,
}

impl Script {
    /// A run of at most so many steps.
    pub fn new(placement: Placement, most: usize) -> Script {
        Script {
            state: State::start(placement).expect("an accepted placement"),
            steps: Vec::new(),
            most,
        }
    }

    fn is_full(&self) -> bool {
        self.steps.len() == self.most
    }

    /// Adds a step, taken or not, if there is room.
    pub fn push(&mut self, (code, argument): RawStep) {
        if !self.is_full() {
            self.state.step_reached(code, argument);
            self.steps.push((code, argument));
        }
    }

    /// Goes on in this mood until it may stop, no allowed move is left, or the run is full.
    pub fn go(&mut self, random: &mut Random, mood: &Mood, mut stop: impl FnMut(&State) -> bool) {
        while !self.is_full() && !stop(&self.state) {
            if random.percent(mood.careless) {
                self.careless(random, 1);
                continue;
            }
            match choose(&self.state, random, mood) {
                Some(step) => self.push(step),
                None => break,
            }
        }
    }

    /// Goes on for at most so many steps.
    pub fn stretch(&mut self, random: &mut Random, mood: &Mood, steps: usize) {
        let mut left = steps;
        self.go(random, mood, |_| {
            let stop = left == 0;
            left = left.saturating_sub(1);
            stop
        });
    }

    /// Goes on until no allowed move is left.
    pub fn go_on(&mut self, random: &mut Random, mood: &Mood) {
        self.go(random, mood, |_| false);
    }

    /// Steps picked without looking at the state.
    pub fn careless(&mut self, random: &mut Random, steps: usize) {
        for _ in 0..steps {
            let step = near(random, &self.state.placement);
            self.push(step);
        }
    }

    /// Goes on in changing moods until the run is full.
    pub fn finish(mut self, random: &mut Random) -> Run {
        while !self.is_full() {
            let mood = Mood::any(random);
            let steps = random.between(0, 300);
            self.stretch(random, &mood, steps);
            self.careless(random, 1);
        }
        Run {
            placement: self.state.placement,
            steps: self.steps,
        }
    }
}

/// One allowed move, if the mood leaves any.
fn choose(state: &State, random: &mut Random, mood: &Mood) -> Option<RawStep> {
    let mut moves = moves(state, random, mood);
    moves.retain(|&(code, argument)| state.allowed(code, argument).is_ok());
    let weight = |&(code, _): &RawStep| mood.weights[code as usize];
    let total: usize = moves.iter().map(weight).sum();
    if total == 0 {
        return None;
    }
    let mut number = random.between(0, total - 1);
    moves.into_iter().find(|step| {
        let found = number < weight(step);
        number = number.saturating_sub(weight(step));
        found
    })
}

/// What each task and each card could do next; some of it may be refused.
fn moves(state: &State, random: &mut Random, mood: &Mood) -> Vec<RawStep> {
    let mut moves = Vec::with_capacity(40);
    for (number, task) in state.tasks.iter().enumerate() {
        let only_task = [number as u8, 0, 0, 0, 0, 0, 0, 0];
        match *task {
            Task::Quiet => moves.extend(request(state, random, mood, number as u8)),
            Task::Asking(Request::Read { register }) => {
                moves.push((3, only_task));
                let chosen = random.member(state.holders(register) as u32) as u8;
                moves.push((4, [number as u8, chosen, 0, 0, 0, 0, 0, 0]));
            }
            Task::Asking(Request::Update { .. }) => {
                moves.push((3, only_task));
                moves.push((5, only_task));
            }
            Task::Waiting => moves.push((8, only_task)),
            Task::Done(_) => moves.push((10, only_task)),
        }
    }
    for card in 0..state.placement.cards {
        let only_card = [card, 0, 0, 0, 0, 0, 0, 0];
        let idle = |cards: Cards| has(cards, card as usize);
        if !idle(mood.no_dispatch) {
            moves.push((6, only_card));
        }
        if !idle(mood.no_take) {
            moves.push((7, only_card));
        }
        if !idle(mood.no_deliver) {
            moves.push((9, only_card));
        }
    }
    moves
}

fn request(state: &State, random: &mut Random, mood: &Mood, task: u8) -> Option<RawStep> {
    let home = state.home(task as usize);
    let read = mood.weights[1];
    let update = match has(mood.no_update, home) {
        true => 0,
        false => mood.weights[2],
    };
    let present = ((1u64 << state.placement.registers.len()) - 1) as u32;
    let registers = mood.registers & present;
    if registers == 0 || read + update == 0 {
        return None;
    }
    let register = random.member(registers) as u8;
    if random.between(1, read + update) <= read {
        return Some((1, [task, register, 0, 0, 0, 0, 0, 0]));
    }
    let operand = match random.percent(20) {
        true => {
            let primary = state.placement.registers[register as usize].primary;
            let value = state.copy(primary as usize, register as usize);
            about_the_top(random, value)
        }
        false => operand(random),
    };
    let function = known_function(random);
    Some(request_update(task, register, function, operand))
}
