//! The ten steps as a file writes them (RULES 3.3).

use crate::model::files::RawStep;

/// A step whose argument has this first byte and zeros.
pub fn simple(code: u8, first: u8) -> RawStep {
    (code, [first, 0, 0, 0, 0, 0, 0, 0])
}

pub fn request_read(task: u8, register: u8) -> RawStep {
    (1, [task, register, 0, 0, 0, 0, 0, 0])
}

pub fn request_update(task: u8, register: u8, function: u8, operand: u32) -> RawStep {
    let [a, b, c, d] = operand.to_le_bytes();
    (2, [task, register, function, 0, a, b, c, d])
}

/// A request: set the register to a value.
pub fn set(task: u8, register: u8, value: u32) -> RawStep {
    request_update(task, register, 1, value)
}

pub fn perform(task: u8) -> RawStep {
    simple(3, task)
}

pub fn send_read(task: u8, chosen: u8) -> RawStep {
    (4, [task, chosen, 0, 0, 0, 0, 0, 0])
}

pub fn send_update(task: u8) -> RawStep {
    simple(5, task)
}

pub fn dispatch(card: u8) -> RawStep {
    simple(6, card)
}

pub fn take_broadcast(card: u8) -> RawStep {
    simple(7, card)
}

pub fn take_single(task: u8) -> RawStep {
    simple(8, task)
}

pub fn deliver(card: u8) -> RawStep {
    simple(9, card)
}

pub fn report(task: u8) -> RawStep {
    simple(10, task)
}
