//! What stands in a log, and RULES 16.7.

use super::*;
use crate::generate::{adding, file};
use crate::model::placement::Placement;
use crate::model::totals::{total, total_by_card};
use crate::steps::*;

/// The log of the only register, as pairs, and how many others.
fn of(placement: Placement, steps: Vec<(u8, [u8; 8])>) -> (Vec<(u8, u32)>, usize) {
    let (logs, _) = Logs::of(&Run { placement, steps });
    let Log { cards, operands } = &logs.logs[0];
    assert_eq!(cards.len(), operands.len());
    let pairs = cards.iter().copied().zip(operands.iter().copied());
    (pairs.collect(), logs.others[0])
}

/// From step 3 on, whether it is reported or not; a refused one never.
#[test]
fn performed() {
    let placement = || Placement::new(2, &[1, 1], &[(0b10, 1)]);
    let mut steps = vec![request_update(0, 0, 5, 7)];
    assert_eq!(of(placement(), steps.clone()), (vec![], 0));
    steps.push(perform(0));
    assert_eq!(of(placement(), steps.clone()), (vec![(1, 7)], 0));
    steps.extend([perform(0), report(0), perform(0)]);
    steps.extend([request_update(1, 0, 2, 9), perform(1), report(1)]);
    steps.extend([request_read(1, 0), perform(1)]);
    assert_eq!(of(placement(), steps.clone()), (vec![(1, 7)], 1));
    steps.extend([report(1), request_update(1, 0, 5, 0), perform(1)]);
    assert_eq!(of(placement(), steps), (vec![(1, 7), (1, 0)], 1));
}

/// When the primary delivers it and at no other card; in the order of the broadcasts, with the card
/// that the task is at home on, whoever sent first.
#[test]
fn delivered() {
    let placement = || Placement::new(4, &[3, 0, 2], &[(0b0111, 1)]);
    let mut steps = vec![
        request_update(0, 0, 5, 1),
        request_update(1, 0, 5, 2),
        request_update(2, 0, 3, 3),
        send_update(0),
        send_update(1),
        send_update(2),
        dispatch(2),
        dispatch(0),
        dispatch(3),
    ];
    for card in [0, 2, 1] {
        steps.extend([take_broadcast(card); 3]);
    }
    steps.extend([deliver(0); 3]);
    steps.extend([deliver(2); 3]);
    assert_eq!(of(placement(), steps.clone()), (vec![], 0));
    steps.push(deliver(1));
    assert_eq!(of(placement(), steps.clone()), (vec![], 1));
    steps.push(deliver(1));
    assert_eq!(of(placement(), steps.clone()), (vec![(0, 2)], 1));
    steps.extend([deliver(1), deliver(1), dispatch(1)]);
    assert_eq!(of(placement(), steps), (vec![(0, 2), (3, 1)], 1));
}

/// What the primary's copy must be, after every step of a run in which all updates add. Gives how many
/// logs there are in the end: with updates, of several cards, and whose sums came round.
fn followed(run: &Run) -> [usize; 3] {
    let mut state = State::start(run.placement.clone()).expect("an accepted placement");
    let registers = run.placement.registers.len();
    let mut logs = Logs::new(registers);
    let mut round = vec![false; registers];
    for (place, &(code, argument)) in run.steps.iter().enumerate() {
        let applied = state.allowed(code, argument).ok().and_then(|step| {
            logs.see(&state, step);
            Applied::by(&state, step)
        });
        state.step_reached(code, argument);
        let Some(Applied { register, .. }) = applied else {
            continue;
        };
        let copy = state.copy(run.placement.registers[register].primary as usize, register);
        let Log { cards, operands } = &logs.logs[register];
        assert_eq!(total(cards, operands), (0, copy), "step {place}");
        assert_eq!(total_by_card(cards, operands), (0, copy), "step {place}");
        round[register] |= operands.last().is_some_and(|&last| copy < last);
    }
    assert_eq!(
        (logs.others, &state),
        (vec![0; registers], &Logs::of(run).1)
    );
    let mut counts = [0; 3];
    for (log, round) in logs.logs.iter().zip(round) {
        let several = log.cards.iter().any(|card| *card != log.cards[0]);
        for (count, found) in counts
            .iter_mut()
            .zip([!log.cards.is_empty(), several, round])
        {
            *count += found as usize;
        }
    }
    counts
}

/// RULES 16.7, and of the cards and registers that it is about.
#[test]
fn the_total_is_the_copy() {
    let mut counts = [0; 3];
    for item in 0..300 {
        let Ok(mut run) = Run::read(&file(16, item).1) else {
            continue;
        };
        adding(&mut run, |_| true);
        for (count, more) in counts.iter_mut().zip(followed(&run)) {
            *count += more;
        }
    }
    let [with_updates, several, round] = counts;
    assert!(with_updates > 2_000, "{with_updates}");
    assert!(several > 1_000, "{several}");
    assert!(round > 1_000, "{round}");
}
