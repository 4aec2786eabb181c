//! Generated loads reach what they must, and each drawer with one thing wrong is noticed.

use super::*;
use crate::model::load::wrong::{drawn, WRONG};
use crate::statistics::{none_missing, FILES};

/// Compares on seeds at their ends, and on so many items.
fn run(drawer: Drawer, answerer: Answerer) -> Result<Compared, String> {
    let compares = Compares { drawer, answerer };
    ends(compares)?;
    items(compares)
}

fn items(compares: Compares) -> Result<Compared, String> {
    let mut compared = Compared::default();
    for item in 0..FILES {
        compare(&mut Random::new(1, item), &mut compared, compares)?;
    }
    Ok(compared)
}

fn model(load: &Load, output: &mut [u8]) -> (u8, u32) {
    load.write_into(output)
}

/// The name of a thing, and how it is taken away.
type Taken = (&'static str, fn(&mut Compared));

#[test]
fn generated_loads_reach_everything() {
    let compared = run(&model, &answer_file).expect("the model's own");
    assert_eq!(none_missing(compared.missing()), Ok(()));
    let taken: [Taken; 12] = [
        ("calls with 4", |c| c.calls.retain(|&n, _| n != 4)),
        ("calls without an output, 5", |c| {
            c.empty.retain(|&n, _| n != 5)
        }),
        ("3 alone for more than 4,096 steps", |c| {
            c.alone
                .retain(|&reason, _| reason != "more than 4,096 steps")
        }),
        ("3 where 4 would come too", |c| c.both = 0),
        ("loads drawn, steps 4096", |c| {
            c.sizes.retain(|&size, _| size != ("steps", 4_096))
        }),
        ("loads drawn, cards 1", |c| {
            c.sizes.retain(|&size, _| size != ("cards", 1))
        }),
        ("loads drawn, seed 4294967295", |c| {
            c.seeds.retain(|&seed, _| seed != u32::MAX)
        }),
        ("loads refused, steps 65536", |c| {
            c.too_many.retain(|&steps, _| steps != 65_536)
        }),
        ("steps drawn, code 10", |c| c.codes.retain(|&n, _| n != 10)),
        ("steps drawn, function 5", |c| {
            c.functions.retain(|&n, _| n != 5)
        }),
        ("steps taken", |c| c.taken = 0),
        ("outputs longer by 0", |c| c.room.retain(|&n, _| n != 0)),
    ];
    for (name, take) in taken {
        let mut less = compared.clone();
        take(&mut less);
        assert_eq!(less.missing(), [name]);
    }
}

/// By the seeds at their ends alone, and by generated ones alone.
#[test]
fn each_wrong_draw_is_noticed() {
    for wrong in WRONG {
        let drawer = |load: &Load, output: &mut [u8]| put(drawn(load, wrong), output);
        let compares = Compares {
            drawer: &drawer,
            answerer: &answer_file,
        };
        assert!(items(compares).is_err(), "{wrong:?}");
        assert!(ends(compares).is_err(), "{wrong:?}");
    }
}

/// A file at the start of an output, as a drawer answers.
fn put(file: Result<Vec<u8>, u8>, output: &mut [u8]) -> (u8, u32) {
    match file {
        Err(refusal) => (refusal, 0),
        Ok(file) if output.len() < file.len() => (5, 0),
        Ok(file) => {
            output[..file.len()].copy_from_slice(&file);
            (0, file.len() as u32)
        }
    }
}

/// What a drawer does that takes another load than it is given.
fn changed(load: &Load, output: &mut [u8], change: fn(&mut Load)) -> (u8, u32) {
    let mut load = load.clone();
    change(&mut load);
    load.write_into(output)
}

/// A drawer with one thing wrong that is none of the draws.
type Other = (&'static str, fn(&Load, &mut [u8]) -> (u8, u32));

const OTHERS: [Other; 14] = [
    ("cards cut to a byte", |l, o| {
        changed(l, o, |l| l.cards &= 255)
    }),
    ("steps cut to two bytes", |l, o| {
        changed(l, o, |l| l.steps &= 65_535)
    }),
    ("at most 4,096 steps", |l, o| {
        changed(l, o, |l| l.steps = l.steps.min(4_096))
    }),
    ("4,095 steps", |l, o| match l.steps {
        4_096 => (3, 0),
        _ => l.write_into(o),
    }),
    ("seventeen tasks", |l, o| {
        changed(l, o, |l| l.homes.truncate(16))
    }),
    ("any primaries", |l, o| {
        changed(l, o, |l| l.primaries.resize(l.copies.len(), 0))
    }),
    ("4 before 3", |l, o| match l.tables().misplaced() {
        true => (4, 0),
        false => l.write_into(o),
    }),
    ("5 before 4", |l, o| match l.file() {
        Err(4) if o.is_empty() => (5, 0),
        _ => l.write_into(o),
    }),
    ("N judged after the placement", |l, o| {
        match l.tables().file() {
            Err(refusal) => (refusal, 0),
            Ok(_) => l.write_into(o),
        }
    }),
    ("a byte more asked for", |l, o| match l.file() {
        Ok(file) if o.len() == file.len() => (5, 0),
        _ => l.write_into(o),
    }),
    ("written where it is too short", |l, o| {
        if let (Ok(file), length) = (l.file(), o.len()) {
            o.copy_from_slice(&[&file[..], &o[file.len().min(length)..]].concat()[..length]);
        }
        l.write_into(o)
    }),
    ("the placement written where it is refused", |l, o| {
        if let ([sizes, ..], Err(_)) = (&mut *o, l.file()) {
            *sizes = !*sizes;
        }
        l.write_into(o)
    }),
    ("a byte past the file", |l, o| {
        let answer = l.write_into(o);
        if let (0, Some(past)) = (answer.0, o.get_mut(answer.1 as usize)) {
            *past = !*past;
        }
        answer
    }),
    ("a length where refused", |l, o| match l.write_into(o) {
        (5, _) => (5, 1),
        answer => answer,
    }),
];

#[test]
fn each_other_wrong_drawer_is_noticed() {
    for (name, drawer) in OTHERS {
        assert!(run(&drawer, &answer_file).is_err(), "{name}");
    }
}

/// Who answers the file otherwise, or with a result for who writes a step.
#[test]
fn answers_are_looked_at() {
    let other = |file: &[u8]| {
        let mut answer = answer_file(file)?;
        let last = answer.len() - 1;
        answer[last] ^= u8::from(last > 2);
        Ok(answer)
    };
    let said = run(&model, &other).expect_err("another answer");
    assert!(said.ends_with("the file is answered otherwise"), "{said}");
    let said = run(&model, &|_| Err(4)).expect_err("a refusal");
    assert!(said.ends_with("the file is refused with 4"), "{said}");
    let one = [1, 1, 1, 1, 0, 0, 1, 0, 11, 0, 0, 0, 0, 0, 0, 0, 0];
    assert_eq!(answered(&one, &answer_file), Err("step 0 gives 10".into()));
}

/// A file of other tables is none of the load's.
#[test]
fn tables_are_looked_at() {
    let load = Load::new(7, placements()[1].clone(), 5);
    let file = load.file().expect("a good one");
    assert_eq!(same_tables(&load, &file), Ok(()));
    let others = [
        Load {
            steps: 6,
            ..load.clone()
        },
        Load {
            homes: vec![0, 0],
            ..load.clone()
        },
    ];
    for other in others {
        assert!(same_tables(&other, &file).is_err());
    }
    assert!(same_tables(&load, &file[1..]).is_err());
}
