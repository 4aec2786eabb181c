//! What is needed is looked for, item by item.

use super::*;
use crate::generate::{file, Kind};
use crate::named;

fn of_seed(seed: u64, files: u64) -> Statistics {
    let mut statistics = Statistics::default();
    for item in 0..files {
        let (kind, file) = file(seed, item);
        statistics.add(kind, &file);
    }
    statistics
}

#[test]
fn generated_files_reach_everything() {
    let statistics = of_seed(1, FILES);
    assert_eq!(none_missing(statistics.missing()), Ok(()));
    assert_eq!(statistics.largest, LIMITS);
    // The rules give neither to a file: 6 needs an ill-sized state, 23 more requests.
    assert!(!statistics.results.contains_key(&6));
    assert!(!statistics.results.contains_key(&23));
}

/// What one small file leaves out is named, item by item.
#[test]
fn one_file_does_not() {
    let mut statistics = Statistics::default();
    let runs = named::runs();
    let k8 = runs.iter().find(|run| run.name == "K8").expect("K8");
    statistics.add(Kind::Guided, &k8.file);
    let missing = statistics.missing();
    let total: usize = statistics.needed().iter().map(|one| one.items.len()).sum();
    // It has 22, codes 2 and 3, function 1, and one card, register and task.
    assert_eq!((total, missing.len()), (65, 65 - 7));
    for name in [
        "files that are loads",
        "files refused with 4",
        "steps refused with 34",
        "steps taken with code 10",
        "steps 8 taken with 0",
        "steps 8 taken with 100",
        "updates asked for with function 4",
        "sums made by function 2 at the top",
        "messages delivered reply to an update",
        "values above 0 read by a reply",
        "values above 0 found by an update performed at home",
        "files with 8 cards",
        "files with 4,096 steps",
        "runs that met the limit undelivered 32",
    ] {
        assert!(missing.iter().any(|found| found == name), "{name}");
    }
    for name in ["steps refused with 22", "files with 1 card"] {
        assert!(!missing.iter().any(|found| found == name), "{name}");
    }
    let said = none_missing(missing).unwrap_err();
    assert!(said.starts_with("never reached: files that are loads; "));
}

/// The name of a thing, and how it is taken away.
type Taken = (&'static str, fn(&mut Statistics));

/// A thing is missed when it alone is not there.
#[test]
fn each_thing_is_looked_for() {
    let all = of_seed(1, FILES);
    let cases: [Taken; 16] = [
        ("files that are loads", |s| {
            s.kinds.retain(|kind, _| kind != "Load")
        }),
        ("files refused with 2", |s| s.files.retain(|&n, _| n != 2)),
        ("steps refused with 35", |s| {
            s.results.retain(|&n, _| n != 35)
        }),
        ("steps taken with code 8", |s| {
            s.codes.retain(|&n, _| n != 8)
        }),
        ("steps 8 taken with 0", |s| {
            s.arrivals.retain(|&n, _| n != 0)
        }),
        ("steps 8 taken with 100", |s| {
            s.arrivals.retain(|&n, _| n != 100)
        }),
        ("updates asked for with function 3", |s| {
            s.functions.retain(|&n, _| n != 3)
        }),
        ("sums made by function 5 one past it", |s| {
            s.sums.retain(|&sum, _| sum != (5, Sum::OnePast))
        }),
        ("messages delivered reply to a read", |s| {
            s.delivered.retain(|&kind, _| kind != Delivered::ReadReply)
        }),
        ("values above 0 read in a copy at home", |s| {
            s.read.retain(|&way, _| way != Way::Performed)
        }),
        ("values above 0 found by an update performed at home", |s| {
            s.found.retain(|&way, _| way != Way::Performed)
        }),
        ("values above 0 found by an update delivered at home", |s| {
            s.found.retain(|&way, _| way != Way::Delivered)
        }),
        ("values above 0 found by an update with a reply", |s| {
            s.found.retain(|&way, _| way != Way::InReply)
        }),
        ("files with 32 registers", |s| {
            s.registers.retain(|&n, _| n != 32)
        }),
        ("files with no steps", |s| s.lengths.retain(|&n, _| n != 0)),
        ("runs that met the limit inbox 48", |s| s.reached[1] = 0),
    ];
    for (name, take) in cases {
        let mut statistics = all.clone();
        take(&mut statistics);
        assert_eq!(statistics.missing(), [name]);
    }
}

#[test]
fn states_made_by_hand() {
    let results = [0, 6, 23, 100].into_iter().chain(refusals());
    let results: Counts<u8> = results.map(|number| (number, 1)).collect();
    assert_eq!(by_hand(10, 3, &results), [""; 0]);
    assert_eq!(by_hand(10, 0, &results), ["states that are ill sized"]);
    assert_eq!(by_hand(10, 10, &results), ["states that are well sized"]);
    for number in [0, 6, 100] {
        let mut results = results.clone();
        results.remove(&number);
        let missing = format!("steps with result {number}");
        assert_eq!(by_hand(10, 3, &results), [missing]);
    }
    let mut counts: Counts<_> = FAULTS.iter().map(|&(name, _)| (name, 1)).collect();
    assert_eq!(faults(&counts), [""; 0]);
    counts.remove("g: a tag");
    assert_eq!(faults(&counts), ["ill-sized states, g: a tag"]);
}
