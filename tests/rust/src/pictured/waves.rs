//! Waveforms: the signals of a run and what each has at each tick, by the model.

use super::vcd;
use crate::model::files::Run;
use crate::model::step::Step;
use crate::model::{has, Request, State, Task, Value};

#[derive(Clone, Debug, PartialEq, Eq)]
pub struct Signal {
    /// With dots between the scopes, as in `run.card0`.
    pub scope: String,
    pub name: String,
    pub bits: usize,
}

#[derive(Clone, Debug, Default, PartialEq, Eq)]
pub struct Waves {
    pub signals: Vec<Signal>,
    /// From tick 0 on, what each signal has there.
    pub ticks: Vec<Vec<u32>>,
}

/// In the order of docs/PICTURES.md.
fn signals(state: &State) -> Vec<Signal> {
    let mut signals = Vec::new();
    let mut add = |scope: &str, name: &str, bits| {
        signals.push(Signal {
            scope: scope.to_string(),
            name: name.to_string(),
            bits,
        })
    };
    for (name, bits) in [
        ("place", 13),
        ("code", 8),
        ("result", 8),
        ("value", 32),
        ("made", 16),
    ] {
        add("run", name, bits);
    }
    for card in 0..state.placement.cards as usize {
        let scope = format!("run.card{card}");
        for (name, bits) in [
            ("made", 16),
            ("taken", 16),
            ("outbox", 5),
            ("inbox", 6),
            ("held", 5),
        ] {
            add(&scope, name, bits);
        }
        for (register, place) in state.placement.registers.iter().enumerate() {
            if has(place.holders, card) {
                add(&scope, &format!("register{register}"), 32);
            }
        }
    }
    for task in 0..state.tasks.len() {
        add(&format!("run.task{task}"), "state", 3);
    }
    signals
}

/// RULES 1.8.
fn condition(task: Task) -> u32 {
    match task {
        Task::Quiet => 0,
        Task::Asking(Request::Read { .. }) => 1,
        Task::Asking(Request::Update { .. }) => 2,
        Task::Waiting => 3,
        Task::Done(Value::Read(_)) => 4,
        Task::Done(Value::Found(_)) => 5,
    }
}

/// A tick: the place, the code, the result and the value of its step, and the state that this finds.
fn tick(step: [u32; 4], state: &State, made: &[u32]) -> Vec<u32> {
    let channel = &state.channel;
    let mut tick = step.to_vec();
    tick.push(channel.made);
    for (card, &made) in made.iter().enumerate() {
        tick.extend([made, channel.taken[card]]);
        let queues = [channel.outbox[card].len(), channel.inbox[card].len()];
        tick.extend(queues.map(|length| length as u32));
        tick.push(channel.held[card].len() as u32);
        for (register, place) in state.placement.registers.iter().enumerate() {
            if has(place.holders, card) {
                tick.push(state.copy(card, register));
            }
        }
    }
    tick.extend(state.tasks.iter().map(|&task| condition(task)));
    tick
}

/// What a waveform file of this run must have.
pub fn waves(run: &Run) -> Waves {
    let mut state = State::start(run.placement.clone()).expect("an accepted placement");
    let mut made = vec![0; run.placement.cards as usize];
    let mut ticks = Vec::new();
    for (place, &(code, argument)) in run.steps.iter().enumerate() {
        let mut now = tick([place as u32, code as u32, 0, 0], &state, &made);
        let (step, before) = (state.allowed(code, argument), state.channel.made);
        let (result, value) = state.step_reached(code, argument);
        [now[2], now[3]] = [result as u32, value];
        ticks.push(now);
        if let Ok(Step::Dispatch { card }) = step {
            made[card] += state.channel.made - before;
        }
    }
    ticks.push(tick([run.steps.len() as u32, 0, 0, 0], &state, &made));
    Waves {
        signals: signals(&state),
        ticks,
    }
}

/// Says the first thing in which a text differs from what it must be.
pub fn compare(text: &str, wanted: &Waves) -> Result<(), String> {
    let found = vcd::read(text)?;
    for (number, (found, wanted)) in found.signals.iter().zip(&wanted.signals).enumerate() {
        if found != wanted {
            return Err(format!("signal {number} is {found:?}, not {wanted:?}"));
        }
    }
    let counts = (found.signals.len(), wanted.signals.len());
    if counts.0 != counts.1 {
        return Err(format!("{} signals, not {}", counts.0, counts.1));
    }
    for (number, (found, tick)) in found.ticks.iter().zip(&wanted.ticks).enumerate() {
        if let Some(at) = (0..tick.len()).find(|&at| found[at] != tick[at]) {
            let Signal { scope, name, .. } = &wanted.signals[at];
            let (found, wanted) = (found[at], tick[at]);
            return Err(format!(
                "tick {number}: {scope}.{name} is {found}, not {wanted}"
            ));
        }
    }
    match (found.ticks.len(), wanted.ticks.len()) {
        (found, wanted) if found == wanted => Ok(()),
        (found, wanted) => Err(format!("{found} ticks, not {wanted}")),
    }
}
