//! The cases of `view` that are kept: every phrase, and all that could lose its column.

#[cfg(test)]
mod tests;

use super::view;
use crate::folder::File;
use crate::generate;
use crate::model::channel::{BEHIND, UNDELIVERED};
use crate::model::files::{RawStep, Run};
use crate::model::placement::Placement;
use crate::random::Random;
use crate::steps::*;

pub struct Case {
    pub name: &'static str,
    pub file: Vec<u8>,
}

/// One card, register and task, and no steps.
const SMALLEST: [u8; 8] = [1, 1, 1, 0, 0, 0, 1, 0];

fn of(name: &'static str, file: Vec<u8>) -> Case {
    Case { name, file }
}

/// Those that are refused, and the smallest that is not.
pub fn without_steps() -> Vec<Case> {
    vec![
        of("empty", Vec::new()),
        of("too_short", SMALLEST[..7].to_vec()),
        of("too_long", [&SMALLEST[..], &[0]].concat()),
        of("size_out_of_range", vec![9, 1, 1, 0, 0, 0, 1, 0]),
        of("no_copy", vec![1, 1, 1, 0, 0, 0, 0, 0]),
        of("without_steps", SMALLEST.to_vec()),
    ]
}

pub fn cases() -> Vec<Case> {
    let mut cases = without_steps();
    cases.extend([
        of("every_phrase", every_phrase()),
        of("raw_bytes", raw_bytes()),
        of("wide_numbers", wide_numbers()),
        of("full", generate::longest(&mut Random::new(518, 0))),
    ]);
    cases
}

/// The files of the folder.
pub fn files() -> Vec<File> {
    printed(cases(), view)
}

/// Each run file, and what a program prints for it.
pub fn printed(cases: Vec<Case>, program: fn(&[u8]) -> String) -> Vec<File> {
    let pair = |case: Case| {
        let text = program(&case.file);
        [
            (format!("{}.txt", case.name), text.into_bytes()),
            (format!("{}.run", case.name), case.file),
        ]
    };
    cases.into_iter().flat_map(pair).collect()
}

/// The six ways of RULES 5.14, with each step, function and phrase; 34 and 35 last.
fn every_phrase() -> Vec<u8> {
    let placement = Placement::new(3, &[0, 1, 2], &[(0b011, 0), (0b010, 1), (0b100, 2)]);
    let mut steps = vec![
        // 10 to 15, then 21 and 30 to 33.
        simple(11, 0),
        (1, [0, 0, 1, 0, 0, 0, 0, 0]),
        request_read(3, 0),
        request_read(0, 3),
        dispatch(3),
        send_read(0, 3),
        request_update(0, 0, 6, 7),
        perform(0),
        report(0),
        dispatch(0),
        take_broadcast(0),
        take_single(0),
        deliver(0),
        // An update, the only copy at home, with 22, and a refused read, which leaves it an update;
        // then a read with a refused update, and a read of 0, both at home.
        set(2, 2, 5),
        request_read(2, 2),
        send_update(2),
        perform(2),
        report(2),
        request_read(2, 2),
        set(2, 2, 6),
        perform(2),
        report(2),
        request_read(1, 0),
        perform(1),
        report(1),
        // A read, no copy at home.
        request_read(0, 2),
        perform(0),
        send_read(0, 2),
        dispatch(0),
        take_single(0),
        deliver(2),
        dispatch(2),
        take_single(0),
        deliver(0),
        report(0),
        // An update, one holder, not home.
        request_update(0, 2, 3, 9),
        send_update(0),
        dispatch(0),
        take_single(0),
        deliver(2),
        dispatch(2),
        take_single(0),
        deliver(0),
        report(0),
        // An update, several holders, not home: the reply is held at card 2.
        request_update(2, 0, 4, 8),
        send_update(2),
        dispatch(2),
        take_broadcast(0),
        deliver(0),
        dispatch(0),
        take_single(2),
        deliver(2),
        take_broadcast(2),
        deliver(2),
        report(2),
        // Both sums at the top, at home.
        set(2, 2, u32::MAX),
        perform(2),
        report(2),
        request_update(2, 2, 2, 3),
        perform(2),
        report(2),
        request_update(2, 2, 5, 3),
        perform(2),
        report(2),
        request_read(2, 2),
        perform(2),
        report(2),
    ];
    // Updates, home is one of several holders. Card 1 takes nothing until it is as far behind as it can
    // be and one more is refused; then it takes each as it comes, until its inbox has no room for one.
    for number in 2..=UNDELIVERED as u32 + 1 {
        steps.extend([request_update(0, 0, 2, number), send_update(0), dispatch(0)]);
        if number == BEHIND + 1 {
            // It passes when the other cards have taken all.
            steps.extend([take_broadcast(1); BEHIND as usize]);
            steps.extend([take_broadcast(2); BEHIND as usize - 1]);
            steps.push(dispatch(0));
        }
        steps.extend([take_broadcast(0), deliver(0), report(0)]);
        if number > BEHIND {
            steps.push(take_broadcast(1));
        }
    }
    Run { placement, steps }.write()
}

/// Steps that cannot be read: unknown codes, bytes that no code names, functions 0, 6 and 255,
/// also where an absent task or register is noticed first.
fn raw_bytes() -> Vec<u8> {
    let placement = Placement::new(2, &[0, 1], &[(0b11, 0)]);
    let mut steps: Vec<RawStep> = Vec::new();
    for code in [0, 11, 99, 127, 128, 255] {
        steps.push((code, [0; 8]));
        steps.push((code, [1, 35, 69, 103, 137, 171, 205, 239]));
    }
    for code in 1..=10 {
        // Byte 3; the last byte, which code 2 alone names; every byte.
        let last = match code {
            2 => [0, 0, 1, 128, 7, 0, 0, 0],
            _ => [0, 0, 0, 0, 0, 0, 0, 16],
        };
        steps.extend([
            (code, [0, 0, 0, 1, 0, 0, 0, 0]),
            (code, last),
            (code, [255; 8]),
        ]);
    }
    for function in [0, 6, 255] {
        steps.push(request_update(0, 0, function, 7));
        steps.push(request_update(2, 0, function, 7));
        steps.push(request_update(0, 1, function, u32::MAX));
    }
    steps.push(request_update(0, 0, 1, 7));
    steps.push(request_update(0, 0, 0, 7));
    Run { placement, steps }.write()
}

/// Every size at its most; the largest operand and value; 100 to 255 wherever a byte is told.
fn wide_numbers() -> Vec<u8> {
    let homes: Vec<u8> = (0..16).map(|task| task / 2).collect();
    // Register 0 everywhere, 31 on card 7, the others on any cards.
    let place = |register: u8| match register {
        0 => (255, 7),
        31 => (128, 7),
        _ => (register << 3 | 1 << (register % 8), register % 8),
    };
    let places: Vec<(u8, u8)> = (0..32).map(place).collect();
    let placement = Placement::new(8, &homes, &places);
    let mut steps = vec![
        set(15, 31, u32::MAX),
        perform(15),
        report(15),
        request_read(15, 31),
        perform(15),
        report(15),
        request_read(0, 31),
        send_read(0, 7),
        dispatch(0),
        take_single(0),
        deliver(7),
        dispatch(7),
        take_single(0),
        deliver(0),
        report(0),
    ];
    for byte in 100..=255 {
        let operand = u32::MAX / (byte as u32 - 99);
        steps.extend([
            request_read(byte, 0),
            request_read(0, byte),
            request_update(byte, byte, 1 + byte % 5, operand),
            request_update(15, byte, 1 + byte % 5, operand),
            send_read(9, byte),
            dispatch(byte),
            report(byte),
        ]);
    }
    Run { placement, steps }.write()
}
