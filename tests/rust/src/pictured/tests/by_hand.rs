//! K9 and K10 written out from RULES 13.2 and 13, and not by `expected`.

use super::super::marks::{Kind, MessageMark, Sort, Stage, StepMark, ValueMark};
use super::*;

/// Code, result, card, operation.
type Told = (u8, u8, usize, Option<usize>);

fn steps(told: &[Told]) -> Vec<StepMark> {
    let steps = told.iter().enumerate();
    let step = |(place, &(code, result, card, op)): (usize, &Told)| StepMark {
        place,
        code,
        result,
        card: Some(card),
        op,
        ..StepMark::default()
    };
    steps.map(step).collect()
}

fn value(place: usize, (card, register): (usize, usize), value: u32, op: usize) -> ValueMark {
    ValueMark {
        place,
        card,
        register,
        value,
        op,
    }
}

fn stage(sort: Sort, card: usize, since: usize, until: Option<usize>) -> Stage {
    Stage {
        sort,
        card,
        since,
        until,
    }
}

/// The message of operation 0, an update of task 2 to all three cards: sent at place 1, dispatched at 2, never
/// taken by card 2; cards 0 and 1 take and deliver it at these places.
fn broadcast_one(card_0: [usize; 2], card_1: [usize; 2]) -> MessageMark {
    let mut stages = vec![stage(Sort::Outbox, 2, 1, Some(2))];
    for (card, [taken, delivered]) in [card_0, card_1].into_iter().enumerate() {
        stages.push(stage(Sort::Flight, card, 2, Some(taken)));
        stages.push(stage(Sort::Inbox, card, taken, Some(delivered)));
    }
    stages.push(stage(Sort::Flight, 2, 2, None));
    MessageMark {
        op: 0,
        kind: Kind::Update,
        from: 2,
        broadcast: Some(1),
        tag: None,
        stages,
    }
}

fn single(op: usize, kind: Kind, from: usize, tag: Option<u32>, stages: &[Stage]) -> MessageMark {
    MessageMark {
        op,
        kind,
        from,
        broadcast: None,
        tag,
        stages: stages.to_vec(),
    }
}

/// Operation 0 sets register 0 to 7, 1 is task 0's read, 2 sets register 1 to 9 (RULES 12.11).
#[test]
fn k9() {
    let marks = wanted("K9").marks;
    let mut told = steps(&[
        (2, 0, 2, Some(0)),
        (5, 0, 2, Some(0)),
        (6, 0, 2, Some(0)),
        (7, 0, 0, Some(0)),
        (9, 0, 0, Some(0)),
        (1, 0, 0, Some(1)),
        (3, 0, 0, Some(1)),
        (10, 0, 0, Some(1)),
        (2, 0, 0, Some(2)),
        (5, 0, 0, Some(2)),
        (6, 0, 0, Some(2)),
        (8, 100, 1, Some(2)),
        (9, 33, 1, None),
        (7, 0, 1, Some(0)),
        (9, 0, 1, Some(0)),
        (9, 0, 1, Some(2)),
    ]);
    told[7].value = Some(7);
    told[13].frees = vec![2];
    assert_eq!(marks.steps, told);
    let values = [
        value(4, (0, 0), 7, 0),
        value(14, (1, 0), 7, 0),
        value(15, (1, 1), 9, 2),
    ];
    assert_eq!(marks.values, values);
    let held = [
        stage(Sort::Outbox, 0, 9, Some(10)),
        stage(Sort::Flight, 1, 10, Some(11)),
        stage(Sort::Hold, 1, 11, Some(13)),
        stage(Sort::Inbox, 1, 13, Some(15)),
    ];
    let reply = [stage(Sort::Outbox, 1, 15, None)];
    let messages = [
        broadcast_one([3, 4], [13, 14]),
        single(2, Kind::Update, 0, Some(1), &held),
        single(2, Kind::UpdateReply, 1, None, &reply),
    ];
    assert_eq!(marks.messages, messages);
}

/// Operation 0 as in K9, 1 is task 0's read of register 1, to which card 1 replies with 0.
#[test]
fn k10() {
    let marks = wanted("K10").marks;
    let mut told = steps(&[
        (2, 0, 2, Some(0)),
        (5, 0, 2, Some(0)),
        (6, 0, 2, Some(0)),
        (7, 0, 1, Some(0)),
        (9, 0, 1, Some(0)),
        (1, 0, 0, Some(1)),
        (4, 0, 0, Some(1)),
        (6, 0, 0, Some(1)),
        (8, 0, 1, Some(1)),
        (9, 0, 1, Some(1)),
        (6, 0, 1, Some(1)),
        (8, 100, 0, Some(1)),
        (9, 33, 0, None),
        (10, 21, 0, None),
        (7, 0, 0, Some(0)),
        (9, 0, 0, Some(0)),
        (10, 21, 0, None),
        (9, 0, 0, Some(1)),
        (10, 0, 0, Some(1)),
    ]);
    told[14].frees = vec![1];
    told[18].value = Some(0);
    assert_eq!(marks.steps, told);
    assert_eq!(
        marks.values,
        [value(4, (1, 0), 7, 0), value(15, (0, 0), 7, 0)]
    );
    let read = [
        stage(Sort::Outbox, 0, 6, Some(7)),
        stage(Sort::Flight, 1, 7, Some(8)),
        stage(Sort::Inbox, 1, 8, Some(9)),
    ];
    let reply = [
        stage(Sort::Outbox, 1, 9, Some(10)),
        stage(Sort::Flight, 0, 10, Some(11)),
        stage(Sort::Hold, 0, 11, Some(14)),
        stage(Sort::Inbox, 0, 14, Some(17)),
    ];
    let messages = [
        broadcast_one([14, 15], [3, 4]),
        single(1, Kind::Read, 0, Some(0), &read),
        single(1, Kind::ReadReply, 1, Some(1), &reply),
    ];
    assert_eq!(marks.messages, messages);
}

/// Two that are held join in order of arrival (RULES 6.5): operation 2 of task 2 before 1 of task 0.
#[test]
fn two_held() {
    let marks = wanted("two-held").marks;
    let freeing = marks.steps.iter().filter(|step| !step.frees.is_empty());
    let frees: Vec<_> = freeing.map(|step| (step.place, &step.frees[..])).collect();
    assert_eq!(frees, [(16, &[2, 1][..])]);
}

/// What signals of K9 have at some ticks, by their names; changes are seen a tick after their step.
#[test]
fn waves_of_k9() {
    let waves = wanted("K9").waves;
    let at = |tick: usize, name: &str| {
        let signals = waves.signals.iter();
        let mut names = signals.map(|signal| format!("{}.{}", signal.scope, signal.name));
        let signal = names.position(|other| other == name).expect(name);
        waves.ticks[tick][signal]
    };
    assert_eq!((waves.ticks.len(), waves.signals.len()), (17, 27));
    let all: [(&str, &[(usize, u32)]); 16] = [
        ("run.place", &[(0, 0), (7, 7), (16, 16)]),
        ("run.code", &[(0, 2), (1, 5), (11, 8), (15, 9), (16, 0)]),
        ("run.result", &[(10, 0), (11, 100), (12, 33), (13, 0)]),
        ("run.value", &[(6, 0), (7, 7), (8, 0)]),
        ("run.made", &[(2, 0), (3, 1), (16, 1)]),
        ("run.card0.made", &[(16, 0)]),
        ("run.card2.made", &[(2, 0), (3, 1), (16, 1)]),
        ("run.card1.taken", &[(13, 0), (14, 1)]),
        ("run.card2.taken", &[(16, 0)]),
        ("run.card1.held", &[(11, 0), (12, 1), (13, 1), (14, 0)]),
        ("run.card1.inbox", &[(13, 0), (14, 2), (15, 1), (16, 0)]),
        ("run.card1.outbox", &[(15, 0), (16, 1)]),
        ("run.card0.register0", &[(4, 0), (5, 7)]),
        ("run.card1.register1", &[(15, 0), (16, 9)]),
        (
            "run.task0.state",
            &[(5, 0), (6, 1), (7, 4), (8, 0), (9, 2), (10, 3), (16, 3)],
        ),
        ("run.task2.state", &[(0, 0), (1, 2), (2, 3), (16, 3)]),
    ];
    for (name, ticks) in all {
        for &(tick, value) in ticks {
            assert_eq!(at(tick, name), value, "{name} at tick {tick}");
        }
    }
}
