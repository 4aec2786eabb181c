//! What some runs have, and that each kind of file reaches its limit.

use super::*;
use crate::generate::file_of;
use crate::model::placement::Placement;
use crate::random::Random;

fn of_one(kind: Kind, item: u64) -> Statistics {
    let mut statistics = Statistics::default();
    statistics.add(kind, &file_of(kind, &mut Random::new(5, item)));
    statistics
}

#[test]
fn each_kind_reaches_its_limit() {
    let largest = |kind: Kind, item: u64| of_one(kind, item).largest;
    for item in 0..20 {
        assert_eq!(largest(Kind::Behind, item).behind, 24);
        assert_eq!(largest(Kind::Requests, item).outbox, 16);
        assert_eq!(largest(Kind::Replies, item).outbox, 16);
        assert_eq!(largest(Kind::Inbox, item).undelivered, 32);
    }
    let full = (0..20).filter(|&item| largest(Kind::Inbox, item).inbox == 48);
    assert!(full.count() > 5);
    let full = (0..20).filter(|&item| largest(Kind::Held, item).held == 16);
    assert!(full.count() > 5);
}

#[test]
fn a_full_file_has_everything() {
    for item in 0..50 {
        let statistics = of_one(Kind::Full, item);
        assert!(statistics.lengths.contains_key(&4_096));
        assert_eq!(statistics.largest, LIMITS, "{item}");
        assert_eq!(statistics.results_missing(), [], "{item}");
    }
}

/// K9, K10 and a read at home, counted by hand.
#[test]
fn messages_and_values_of_named_runs() {
    let of = |name: &str| {
        let mut runs = crate::named::runs().into_iter();
        let run = runs.find(|run| run.name == name).expect("a named run");
        let mut statistics = Statistics::default();
        statistics.add(Kind::Guided, &run.file);
        statistics
    };
    let k9 = of("K9");
    assert_eq!(k9.delivered, Counts::from([(Delivered::Update, 3)]));
    assert_eq!(k9.read, Counts::from([(Way::Performed, 1)]));
    assert_eq!(k9.found, Counts::new());
    assert_eq!(k9.functions, Counts::from([(1, 2)]));
    assert_eq!(k9.results, Counts::from([(0, 14), (33, 1), (100, 1)]));
    assert_eq!(k9.arrivals, Counts::from([(100, 1)]));
    let k10 = of("K10");
    let delivered = [
        (Delivered::Read, 1),
        (Delivered::Update, 2),
        (Delivered::ReadReply, 1),
    ];
    assert_eq!(k10.delivered, Counts::from(delivered));
    // What task 0 read is 0.
    assert_eq!(k10.read, Counts::new());
    // The read message joins, and the reply is held.
    assert_eq!(k10.arrivals, Counts::from([(0, 1), (100, 1)]));
    let results = [(0, 15), (21, 2), (33, 1), (100, 1)];
    assert_eq!(k10.results, Counts::from(results));
    // The first update of each finds 0.
    assert_eq!(of("counter").found, Counts::from([(Way::Performed, 2)]));
    assert_eq!(of("K11").found, Counts::from([(Way::Delivered, 23)]));
}

/// A reported value by each way, of a read and of an update: written out by hand. Task 1 is on card
/// 1, register 0 on both cards, register 1 on card 0.
#[test]
fn ways_of_values() {
    use crate::steps::*;
    let placement = Placement::new(2, &[0, 1], &[(0b11, 0), (0b01, 0)]);
    let mut steps = Vec::new();
    for value in [7, 9] {
        steps.extend([set(0, 1, value), perform(0), report(0)]);
        let request = [set(0, 0, value), send_update(0), dispatch(0)];
        steps.extend(request);
        steps.extend([take_broadcast(1), deliver(1)]);
        steps.extend([take_broadcast(0), deliver(0), report(0)]);
    }
    let there_and_back = [
        dispatch(1),
        take_single(1),
        deliver(0),
        dispatch(0),
        take_single(1),
        deliver(1),
        report(1),
    ];
    steps.extend([set(1, 1, 5), send_update(1)]);
    steps.extend(there_and_back);
    let mut reads = Vec::new();
    reads.extend([request_read(1, 1), send_read(1, 0)]);
    reads.extend(there_and_back);
    reads.extend([request_read(1, 0), perform(1), report(1)]);
    let of = |steps: &[RawStep]| {
        let mut statistics = Statistics::default();
        let start = State::start(placement.clone()).expect("an accepted placement");
        statistics.add_steps(start, steps);
        assert_eq!(statistics.results, Counts::from([(0, steps.len())]));
        (statistics.read, statistics.found)
    };
    let all = [Way::Performed, Way::Delivered, Way::InReply];
    let found = Counts::from(all.map(|way| (way, 1)));
    assert_eq!(of(&steps), (Counts::new(), found.clone()));
    steps.extend(reads);
    let read = Counts::from([(Way::Performed, 1), (Way::InReply, 1)]);
    assert_eq!(of(&steps), (read, found));
}
