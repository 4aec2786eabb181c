//! The cases of `sums` that are kept: what stands in a log and what does not, sums that come round, and
//! every column.

#[cfg(test)]
mod tests;
#[cfg(test)]
mod wrong;

use super::sums;
use crate::folder::File;
use crate::generate::{self, adding};
use crate::model::files::{RawStep, Run};
use crate::model::has;
use crate::model::placement::Placement;
use crate::random::Random;
use crate::steps::*;
use crate::view::cases::{printed, without_steps, Case};

pub fn cases() -> Vec<Case> {
    let of = |name, run: Run| Case {
        name,
        file: run.write(),
    };
    let mut cases = without_steps();
    cases.extend([
        of("by_hand", by_hand()),
        of("performed", performed()),
        of("several_cards", several_cards()),
        of("mixed_functions", mixed_functions()),
        of("not_yet", not_yet()),
        of("held", held()),
        of("full", full()),
    ]);
    cases
}

/// The files of the folder.
pub fn files() -> Vec<File> {
    printed(cases(), sums)
}

/// Register 0 has the log of RULES 16.9.
fn by_hand() -> Run {
    let placement = Placement::new(3, &[0, 1, 2], &[(0b011, 1), (0b100, 2)]);
    let steps = vec![
        // Task 2, without a copy at home, takes 1 away; the primary applies it and replies.
        request_update(2, 0, 5, u32::MAX),
        send_update(2),
        dispatch(2),
        take_broadcast(1),
        deliver(1),
        // Task 0 adds 3. Card 0 applies both; then the primary applies the second.
        request_update(0, 0, 5, 3),
        send_update(0),
        dispatch(0),
        take_broadcast(0),
        take_broadcast(0),
        deliver(0),
        deliver(0),
        report(0),
        take_broadcast(1),
        deliver(1),
        // The reply is held at card 2, until that has taken both broadcasts.
        dispatch(1),
        take_single(2),
        take_broadcast(2),
        take_broadcast(2),
        deliver(2),
        report(2),
        // Register 1: task 2 performs 4,294,967,290, and task 1 sends 10.
        request_update(2, 1, 5, u32::MAX - 5),
        perform(2),
        report(2),
        request_update(1, 1, 5, 10),
        send_update(1),
        dispatch(1),
        take_single(1),
        // Task 2 adds 5 to register 0: the primary applies it, and card 0 has not taken it.
        request_update(2, 0, 5, 5),
        send_update(2),
        dispatch(2),
        take_broadcast(1),
        deliver(1),
        // Card 2 applies the 10.
        deliver(2),
    ];
    Run { placement, steps }
}

/// One card. An update counts before it is reported, and one that is only asked for does not.
fn performed() -> Run {
    let placement = Placement::new(1, &[0, 0, 0], &[(1, 0), (1, 0), (1, 0)]);
    let steps = vec![
        request_update(0, 0, 5, 7),
        perform(0),
        report(0),
        request_update(1, 0, 5, u32::MAX),
        perform(1),
        perform(1),
        report(1),
        request_update(0, 1, 5, 1_000_000_000),
        perform(0),
        request_update(1, 2, 5, 9),
        request_update(2, 2, 5, 0),
        perform(2),
    ];
    Run { placement, steps }
}

/// From request to report, in the ways of RULES 5.14. Where it is broadcast, every card takes it and
/// every holder delivers it.
fn update(
    placement: &Placement,
    task: u8,
    register: u8,
    function: u8,
    operand: u32,
) -> Vec<RawStep> {
    let home = placement.home[task as usize];
    let place = placement.registers[register as usize];
    let mut steps = vec![request_update(task, register, function, operand)];
    if place.holders == 1 << home {
        steps.push(perform(task));
    } else {
        steps.extend([send_update(task), dispatch(home)]);
        match place.holders.count_ones() {
            1 => steps.push(take_single(task)),
            _ => steps.extend((0..placement.cards).map(take_broadcast)),
        }
        let holders = (0..8).filter(|&card| has(place.holders, card as usize));
        steps.extend(holders.map(deliver));
        if !has(place.holders, home as usize) {
            steps.extend([dispatch(place.primary), take_single(task), deliver(home)]);
        }
    }
    steps.push(report(task));
    steps
}

/// So many updates one after another: task, register, function and operand.
fn updates(placement: Placement, all: &[(u8, u8, u8, u32)]) -> Run {
    let steps = all.iter().flat_map(|&(task, register, function, operand)| {
        update(&placement, task, register, function, operand)
    });
    Run {
        steps: steps.collect(),
        placement: placement.clone(),
    }
}

/// Five tasks on four of five cards, two of them on one. Register 0: two groups come round and the
/// total again. Register 1: no group comes round, the total does. Register 2 lies on one card. Nobody
/// adds to register 3.
fn several_cards() -> Run {
    let places = [(0b00111, 1), (0b11010, 3), (0b00100, 2), (0b11111, 4)];
    let placement = Placement::new(5, &[0, 1, 2, 3, 3], &places);
    let all = [
        (0, 0, 5, 4_000_000_000),
        (3, 0, 5, 4_000_000_000),
        (1, 0, 5, 17),
        (0, 0, 5, 1_000_000_000),
        (4, 0, 5, 1_000_000_000),
        (2, 0, 5, 4_294_967_290),
        (3, 0, 5, 1),
        (0, 1, 5, 1 << 31),
        (1, 1, 5, 1 << 30),
        (3, 1, 5, 1 << 30),
        (4, 1, 5, 5),
        (2, 2, 5, u32::MAX),
        (2, 2, 5, 0),
        (4, 2, 5, 255),
        (1, 2, 5, 256),
    ];
    updates(placement, &all)
}

/// Only function 5 counts, whatever the copy is.
fn mixed_functions() -> Run {
    let placement = Placement::new(2, &[0, 1], &[(0b11, 0), (0b10, 1), (0b01, 0)]);
    let all = [
        (0, 0, 1, 100),
        (0, 0, 5, 1),
        (1, 0, 2, u32::MAX),
        (1, 0, 5, 20),
        (0, 0, 3, 7_000),
        (0, 0, 5, 300),
        (1, 0, 4, 0xF000_0000),
        (1, 0, 5, 4_000),
        (0, 0, 1, 0),
        (1, 1, 2, 6),
        (0, 1, 3, 5),
        (0, 2, 5, 40),
        (1, 2, 4, 2),
        (0, 2, 5, 50),
    ];
    updates(placement, &all)
}

/// Task 0's update of register 0, applied on card 0 and reported, whatever other cards do.
fn at_home(operand: u32) -> [RawStep; 6] {
    [
        request_update(0, 0, 5, operand),
        send_update(0),
        dispatch(0),
        take_broadcast(0),
        deliver(0),
        report(0),
    ]
}

/// Of register 0 only 1,000 is applied on its primary, card 2. Of the rest 1 and 2 are applied on card 0,
/// and card 2 has 1 in its inbox; 4 is broadcast, 8 in an outbox, and 16 asked for. Of register 1 nothing
/// is: 32 is held at card 1, and 64 in flight to it.
fn not_yet() -> Run {
    let placement = Placement::new(3, &[0, 1, 2, 0, 0], &[(0b111, 2), (0b010, 1)]);
    let mut steps = update(&placement, 1, 0, 5, 1_000);
    steps.extend(at_home(1));
    steps.extend(at_home(2));
    steps.extend([
        take_broadcast(2),
        request_update(1, 0, 5, 4),
        send_update(1),
        dispatch(1),
        request_update(2, 0, 5, 8),
        send_update(2),
        request_update(3, 0, 5, 16),
        request_update(0, 1, 5, 32),
        send_update(0),
        dispatch(0),
        take_single(0),
        request_update(4, 1, 5, 64),
        send_update(4),
        dispatch(0),
    ]);
    Run { placement, steps }
}

/// Two updates of register 1 are held at card 1 until that takes a broadcast, task 2's before task 0's; one
/// more is held for the next, which card 1 does not take.
fn held() -> Run {
    let placement = Placement::new(3, &[0, 0, 2], &[(0b011, 1), (0b010, 1)]);
    let mut steps = at_home(70).to_vec();
    steps.extend([
        take_broadcast(2),
        request_update(0, 1, 5, 6),
        request_update(2, 1, 5, u32::MAX),
        send_update(0),
        send_update(2),
        dispatch(0),
        dispatch(2),
        take_single(2),
        take_single(0),
        deliver(1),
        take_broadcast(1),
        deliver(1),
        deliver(1),
        deliver(1),
        dispatch(1),
        dispatch(1),
        take_single(0),
        take_single(2),
        deliver(0),
        deliver(2),
        report(0),
        report(2),
    ]);
    steps.extend(at_home(80));
    steps.extend([
        request_update(1, 1, 5, 500),
        send_update(1),
        dispatch(0),
        take_single(1),
        deliver(1),
    ]);
    Run { placement, steps }
}

/// Every size at its most, and nine of ten updates add.
fn full() -> Run {
    let file = generate::longest(&mut Random::new(518, 188));
    let mut run = Run::read(&file).expect("an accepted file");
    let random = &mut Random::new(518, 17);
    adding(&mut run, |_| random.percent(90));
    run
}
