//! What the stored runs reach, and that the folder has them.

use super::*;
use crate::folder;
use crate::model::State;
use crate::statistics::{Largest, Statistics, LIMITS};

fn statistics(name: &str) -> Statistics {
    let mut statistics = Statistics::default();
    statistics.add(Kind::Full, &file(name));
    statistics
}

fn largest(name: &str) -> Largest {
    statistics(name).largest
}

/// Worked out by hand from `ADDED`.
#[test]
fn counts_at_the_top() {
    const TOP: u32 = u32::MAX;
    let run = Run::read(&file("counts")).expect("an accepted file");
    let mut state = State::start(run.placement).expect("an accepted placement");
    let mut asked = [0; 2];
    let (mut given, mut found) = (Vec::new(), Vec::new());
    for (code, argument) in run.steps {
        let (result, value) = state.step_reached(code, argument);
        let known = code != 2 || !matches!(argument[2], 0 | 6);
        assert_eq!(result, if known { 0 } else { 15 });
        let task = argument[0] as usize;
        match code {
            1 | 2 => asked[task] = code,
            10 if asked[task] == 1 => given.push(value),
            10 => found.push(value),
            _ => {}
        }
    }
    let stays = [TOP; 4];
    let comes_round = [TOP, 0, TOP, 1];
    let once = [stays, comes_round].concat();
    let twice: Vec<u32> = once.iter().flat_map(|&value| [value; 2]).collect();
    assert_eq!(given, [twice, once.clone(), once].concat());
    // What was there is set to 4,294,967,294, and each sum finds what is then there.
    let stays = [0, TOP - 1, TOP, TOP, TOP];
    let comes_round = [TOP, TOP - 1, TOP, 0, TOP];
    assert_eq!(found, [stays, comes_round].concat().repeat(3));
}

#[test]
fn limits_are_reached() {
    assert_eq!(largest("behind").behind, LIMITS.behind);
    assert_eq!(largest("k12").undelivered, LIMITS.undelivered);
    assert_eq!(largest("outbox").outbox, LIMITS.outbox);
    assert_eq!(largest("inbox").inbox, LIMITS.inbox);
    assert_eq!(largest("held").held, LIMITS.held);
}

/// `full4`, and still `full2`, though it was made as those below.
#[test]
fn full_files_have_every_limit_and_result() {
    for name in ["full2", "full4"] {
        let statistics = statistics(name);
        assert!(statistics.lengths.contains_key(&4_096));
        assert_eq!(statistics.results_missing(), [], "{name}");
        assert_eq!(statistics.largest, LIMITS, "{name}");
    }
}

/// Made when a card could be 64 behind: an inbox is not quite filled any more, so 35 never comes.
#[test]
fn full_files_of_before() {
    for (name, inbox, undelivered) in [("full1", 47, 31), ("full3", 46, 30)] {
        let statistics = statistics(name);
        assert!(statistics.lengths.contains_key(&4_096));
        assert_eq!(statistics.results_missing(), [35], "{name}");
        let reached = Largest {
            inbox,
            undelivered,
            ..LIMITS
        };
        assert_eq!(statistics.largest, reached, "{name}");
    }
}

#[test]
fn the_stored_files_are_these() {
    let data = folder::of_tree("crates/runs/data");
    assert_eq!(folder::compare(&data, &files()), Ok(()));
}
