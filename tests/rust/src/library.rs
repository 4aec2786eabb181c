//! The proved store, linked as a static library (feature `library`), against the model: whole
//! files, the same steps one by one, what a panel reads, states made by hand, sentences, run files
//! from tables, loads, and totals of logs.

mod c;
mod calls;
mod copies;
pub mod load;
pub mod sentences;
pub mod states;
pub mod totals;
mod wild;
pub mod words;
pub mod write;

use gondzselu::{Condition, Refusal, Store, Tally};

use crate::fetching::{Compared, Of};
use crate::memory::{self, Words};
use crate::model::files::{answer_file, answer_into, program_output, Run};
use crate::model::placement::Placement;
use crate::model::results::taken;
use crate::model::{tally, Request, State, Task, Value};
use crate::named;
use crate::random::Random;
use calls::Calls;

/// Version 0.11.0.
const VERSION: u32 = 11_000;

/// What lies in a lent output before.
const FILL: u8 = 0xA5;

/// Compares the library with the model on one file: with room to spare, with just enough and
/// with a byte too few. Says what differs.
pub fn compare(file: &[u8]) -> Result<(), String> {
    let length = program_output(file).len();
    for lent in [length + 7, length, length - 1] {
        compare_lent(file, lent, Tally::default())?;
    }
    Ok(())
}

/// With an output of so many bytes, and a tally that begins so.
fn compare_lent(file: &[u8], lent: usize, begun: Tally) -> Result<(), String> {
    let (mut output, mut counted, mut wanted) =
        (vec![FILL; lent], vec![FILL; lent], vec![FILL; lent]);
    let mut tally = begun;
    let mut wanted_tally = tally::Tally {
        taken: begun.taken,
        refused: begun.refused,
    };
    let refusal = answer_into(file, &mut wanted, &mut wanted_tally);
    let expected = match Refusal::from_number(refusal) {
        None => Ok(2 + 5 * u16::from_le_bytes([file[3], file[4]]) as usize),
        Some(refusal) => Err(refusal),
    };
    let results = [
        gondzselu::answer(file, &mut output),
        gondzselu::answer_counted(file, &mut counted, &mut tally),
    ];
    if results != [expected; 2] {
        return Err(format!("{lent} bytes lent: {results:?}, not {expected:?}"));
    }
    for output in [output, counted] {
        if let Some(at) = (0..lent).find(|&i| output[i] != wanted[i]) {
            let (found, wanted) = (output[at], wanted[at]);
            return Err(format!(
                "{lent} bytes lent, byte {at}: {found}, not {wanted}"
            ));
        }
    }
    if (tally.taken, tally.refused) != (wanted_tally.taken, wanted_tally.refused) {
        return Err(format!(
            "{lent} bytes lent: {tally:?}, not {wanted_tally:?}"
        ));
    }
    Ok(())
}

/// A store of these words.
fn store(words: &Words) -> Store {
    Store::from_words(&words.registers, &words.channel)
}

/// The state that a well-sized store shows.
fn shown(store: &Store) -> State {
    let (registers, channel) = store.words();
    memory::shown(registers, channel)
}

/// A store begun from a placement of the model. The same on 256 or more cards besides is refused:
/// only C can ask for so many.
fn start(placement: &Placement) -> Result<Store, String> {
    let places = placement.registers.iter();
    let (copies, primaries): (Vec<u8>, Vec<u8>) =
        places.map(|place| (place.holders, place.primary)).unzip();
    let mut store = Store::start(gondzselu::Placement {
        cards: placement.cards,
        homes: &placement.home,
        copies: &copies,
        primaries: &primaries,
    })
    .map_err(|refusal| format!("start: {refusal}"))?;
    let begun = store.clone();
    for cards in [256, 1 << 31].map(|more| more + placement.cards as u32) {
        let refusal = c::start(&mut store, cards, &placement.home, &copies, &primaries);
        if refusal != 3 || store != begun {
            return Err(format!("start on {cards} cards: {refusal}"));
        }
    }
    Ok(store)
}

/// Compares the steps of one file taken one by one, by every call that takes a step, each of
/// them checked: results, values, tally, what the memories show (at some steps and the last), and
/// that a refused step changes no word.
pub fn compare_steps(
    file: &[u8],
    random: &mut Random,
    compared: &mut Compared,
) -> Result<(), String> {
    let mut begun = Store::from_words(
        &[random.bits() as u32; gondzselu::REGISTERS_WORDS],
        &[random.bits() as u32; gondzselu::CHANNEL_WORDS],
    );
    let before = begun.clone();
    let answer = begun.restart_from_file(file);
    let number = answer.map_or_else(Refusal::number, |()| 0);
    let run = match Run::read(file) {
        Ok(run) => run,
        Err(refusal) if number == refusal && begun == before => return Ok(()),
        Err(refusal) => return Err(format!("start from the file: {number}, not {refusal}")),
    };
    let mut state = State::start(run.placement.clone()).expect("an accepted placement");
    let store = start(&run.placement)?;
    if number != 0 || begun != store {
        return Err(format!("start from the file: {number}, or another store"));
    }
    let mut calls = Calls::new(store, random.bits());
    for (number, &(code, argument)) in run.steps.iter().enumerate() {
        let look = number + 1 == run.steps.len() || random.percent(5);
        step(&mut state, &mut calls, code, argument, look)
            .map_err(|words| format!("step {number}: {words}"))?;
    }
    compare_panel(&state, calls.store())?;
    copies::compare(Of::Runs, calls.store(), Some(&state), compared)
}

/// Takes a step with all and compares.
fn step(
    state: &mut State,
    calls: &mut Calls,
    code: u8,
    argument: [u8; 8],
    look: bool,
) -> Result<(), String> {
    let before = look.then(|| calls.store().clone());
    let expected = state.step_reached(code, argument);
    calls.step(code, argument, expected)?;
    if !taken(expected.0) && before.is_some_and(|before| before != *calls.store()) {
        return Err("a refused step changes a word".into());
    }
    if look && shown(calls.store()) != *state {
        return Err("the memories show another state".into());
    }
    if look {
        calls.same()?;
    }
    Ok(())
}

fn same(what: &str, found: u32, wanted: u32) -> Result<(), String> {
    match found == wanted {
        true => Ok(()),
        false => Err(format!("{what}: {found}, not {wanted}")),
    }
}

/// What a task is doing, as the crate has it.
fn condition(task: &Task) -> Condition {
    match *task {
        Task::Quiet => Condition::Quiet,
        Task::Asking(Request::Read { .. }) => Condition::AskingRead,
        Task::Asking(Request::Update { operand, .. }) => Condition::AskingUpdate(operand),
        Task::Waiting => Condition::Waiting,
        Task::Done(Value::Read(value)) => Condition::DoneRead(value),
        Task::Done(Value::Found(found)) => Condition::DoneUpdate(found),
    }
}

/// Compares what a panel reads, of absent cards, tasks and registers too.
pub fn compare_panel(state: &State, store: &Store) -> Result<(), String> {
    same("requests", store.requests(), state.requests)?;
    same("broadcasts", store.broadcasts(), state.channel.made)?;
    let (cards, registers) = (state.placement.cards, state.placement.registers.len());
    for card in 0..9 {
        let taken = state.channel.taken.get(card as usize).copied().unwrap_or(0);
        same("taken", store.broadcasts_taken(card), taken)?;
        for register in 0..33 {
            let present = card < cards && (register as usize) < registers;
            let value = if present {
                state.copy(card as usize, register as usize)
            } else {
                0
            };
            same("copy", store.copy(card, register), value)?;
        }
    }
    for register in 0..=u8::MAX {
        let (found, wanted) = (store.copies(register), state.copies_of(register as usize));
        if found != wanted {
            return Err(format!(
                "copies of register {register}: {found:?}, not {wanted:?}"
            ));
        }
    }
    for task in 0..17 {
        let found = store.task(task);
        let wanted = state.tasks.get(task as usize).unwrap_or(&Task::Quiet);
        if found != condition(wanted) {
            return Err(format!("task {task}: {found:?}, not {wanted:?}"));
        }
        let numbers = c::task(store, task as u32);
        if numbers != (found.number() as u32, found.value()) {
            return Err(format!("task {task}: {found:?}, and {numbers:?}"));
        }
    }
    // Numbers that only C can give: all absent.
    for far in [255, 256, 65_536, 1 << 31, u32::MAX] {
        same("taken far", c::broadcasts_taken(store, far), 0)?;
        same("copy far", c::copy(store, far, 0), 0)?;
        same("far copy", c::copy(store, 0, far), 0)?;
        let (kind, value) = c::task(store, far);
        same("task far", kind, 0)?;
        same("its value", value, 0)?;
    }
    Ok(())
}

/// The version, K1 to K13, and a tally that is nearly full.
pub fn compare_named() -> Result<(), String> {
    for version in [c::version(), gondzselu::version(), gondzselu::VERSION] {
        same("version", version, VERSION)?;
    }
    for run in named::runs() {
        compare(&run.file).map_err(|words| format!("{}: {words}", run.name))?;
        let full = Tally {
            taken: u32::MAX - 3,
            refused: u32::MAX,
        };
        let length = answer_file(&run.file).map_or(0, |answer| answer.len());
        compare_lent(&run.file, length, full)?;
    }
    let k13 = named::k13();
    let mut calls = Calls::new(start(&k13.start)?, 13);
    for number in 1..=k13.times {
        for (code, argument) in k13.round {
            calls
                .step(code, argument, (0, 0))
                .map_err(|words| format!("K13, round {number}, code {code}: {words}"))?;
        }
    }
    let (code, argument) = k13.round[0];
    calls
        .step(code, argument, (k13.refusal, 0))
        .and_then(|()| calls.same())
        .map_err(|words| format!("K13, the last step: {words}"))
}
