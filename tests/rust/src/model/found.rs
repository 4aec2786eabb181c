//! The value that an update finds (RULES 5.15): whose copy it is of, when it is looked at, and what
//! brings it to the task.

use super::files::RawStep;
use super::*;
use crate::steps::*;

/// Three cards and task 0 on card 0; one register with these holders and this primary. Each card's
/// copy is another.
fn store(holders: Cards, primary: u8) -> State {
    let placement = Placement::new(3, &[0], &[(holders, primary)]);
    let mut state = State::start(placement).unwrap();
    state.copies = vec![40, 41, 42];
    state
}

/// Takes steps, of which none gives a value.
fn take(state: &mut State, steps: &[RawStep]) {
    for &(code, argument) in steps {
        assert_eq!(state.step(code, argument), (DONE, 0), "{code} {argument:?}");
    }
}

/// What the task reports; it is quiet then.
fn reported(state: &mut State) -> (u8, u32) {
    let (code, argument) = report(0);
    let answer = state.step(code, argument);
    assert_eq!(state.tasks[0], Task::Quiet);
    answer
}

/// To task 0 at its home.
fn reply(value: Value) -> Message {
    let body = Body::Reply { value };
    let (task, to) = (0, only(0));
    Message { task, to, body }
}

const FOUND: fn(u32) -> Task = |word| Task::Done(Value::Found(word));

/// Before the update, whatever it makes of it.
#[test]
fn performed() {
    let made = [7, 47, 40, 47, 47];
    for (function, made) in FUNCTIONS.zip(made) {
        let mut state = store(0b001, 0);
        take(&mut state, &[request_update(0, 0, function, 7), perform(0)]);
        assert_eq!(state.tasks[0], FOUND(40), "{function}");
        assert_eq!(state.copy(0, 0), made, "{function}");
        assert_eq!(reported(&mut state), (0, 40), "{function}");
    }
}

/// Home's copy, also where another card is primary, and no reply.
#[test]
fn delivered_at_home() {
    for primary in [0, 1] {
        let mut state = store(0b011, primary);
        let sent = [set(0, 0, 7), send_update(0), dispatch(0)];
        take(&mut state, &sent);
        take(&mut state, &[take_broadcast(1), deliver(1)]);
        assert_eq!(state.tasks[0], Task::Waiting);
        take(&mut state, &[take_broadcast(0), deliver(0)]);
        assert_eq!(state.tasks[0], FOUND(40));
        assert_eq!(state.copies, [7, 7, 42]);
        assert!(state.channel.outbox.iter().all(|outbox| outbox.is_empty()));
        assert_eq!(reported(&mut state), (0, 40));
    }
}

/// The primary's copy as the message finds it there, whatever that copy is later.
#[test]
fn by_a_reply() {
    let mut state = store(0b110, 2);
    take(&mut state, &[set(0, 0, 7), send_update(0), dispatch(0)]);
    take(&mut state, &[take_broadcast(1), deliver(1)]);
    assert!(state.channel.outbox[1].is_empty());
    take(&mut state, &[take_broadcast(2), deliver(2)]);
    assert_eq!(state.copies, [40, 7, 7]);
    let value = Value::Found(42);
    assert_eq!(state.channel.outbox[2][0].body, Body::Reply { value });
    state.copies[2] = 50;
    take(&mut state, &[dispatch(2)]);
    assert_eq!(state.tasks[0], Task::Waiting);
    take(&mut state, &[take_broadcast(0)]);
    take(&mut state, &[take_single(0), deliver(0)]);
    assert_eq!(state.tasks[0], FOUND(42));
    assert_eq!(reported(&mut state), (0, 42));
}

/// By hand: home is the primary and holds no copy. It replies to itself, and the task is done.
#[test]
fn both_ways_at_once() {
    let mut state = store(0b110, 1);
    state.placement.registers[0].primary = 0;
    take(&mut state, &[set(0, 0, 7), send_update(0)]);
    let message = state.channel.outbox[0].pop_front().expect("a message");
    state.channel.inbox[0].push_back(message);
    take(&mut state, &[deliver(0)]);
    assert_eq!(state.tasks[0], FOUND(40));
    assert_eq!(state.copies, [7, 41, 42]);
    let value = Value::Found(40);
    assert_eq!(state.channel.outbox[0], [reply(value)]);
}

/// A reply says what the task is done with, whatever that was doing: 4 or 5.
#[test]
fn by_the_kind_of_reply() {
    let asking = Task::Asking(Request::Read { register: 0 });
    for before in [Task::Quiet, asking, Task::Waiting, FOUND(3)] {
        for value in [Value::Read(9), Value::Found(9), Value::Found(0)] {
            let mut state = store(0b001, 0);
            state.tasks[0] = before;
            state.channel.inbox[0].push_back(reply(value));
            take(&mut state, &[deliver(0)]);
            assert_eq!(state.tasks[0], Task::Done(value));
            assert_eq!(state.copies, [40, 41, 42]);
            assert_eq!(reported(&mut state), (0, value.word()));
        }
    }
}

/// RULES 5.15: a counter hands out numbers, each once.
#[test]
fn numbers_of_a_counter() {
    let placement = Placement::new(1, &[0, 0], &[(1, 0)]);
    let mut state = State::start(placement).unwrap();
    for number in 0..100 {
        let task = (number % 3 / 2) as u8;
        take(&mut state, &[request_update(task, 0, 5, 1), perform(task)]);
        let (code, argument) = report(task);
        assert_eq!(state.step(code, argument), (0, number));
    }
}
