//! Enough is reached, and each program with one thing wrong is noticed.

use super::*;
use crate::model::load::wrong::{drawn, Wrong, WRONG};

fn ended(well: bool, output: Vec<u8>, errors: String) -> Ended {
    Ended {
        well,
        status: Some(i32::from(!well)),
        output,
        errors: errors.into_bytes(),
    }
}

fn told(wanted: Wanted) -> Ended {
    match wanted {
        Ok(load) => ended(true, load, String::new()),
        Err(why) => ended(false, Vec::new(), format!("load: {why}\n")),
    }
}

fn by_model(arguments: &[String], file: &[u8]) -> Ended {
    told(load(arguments, file))
}

/// The items of a seed with this program.
fn with(program: impl Fn(&[String], &[u8]) -> Ended) -> Result<Compared, String> {
    let mut compared = Compared::default();
    let run = |arguments: &[String], file: &[u8]| Ok(program(arguments, file));
    for item in 0..ITEMS {
        compare(item, &mut Random::new(9, item), &run, &mut compared)?;
    }
    Ok(compared)
}

#[test]
fn enough_is_reached() {
    let compared = with(by_model).expect("the model's own");
    assert_eq!(compared.missing(), [""; 0]);
    assert_eq!(Compared::default().missing().len(), 4 + WAYS.len() + 8 + 10);
    let mut less = compared.clone();
    less.refused.remove("refused 3: a size out of range");
    less.unwanted.remove("a plus");
    less.sizes.remove(&("tasks", 16));
    less.codes.remove(&7);
    let missing = [
        "files refused 3: a size out of range",
        "arguments, a plus",
        "loads drawn, tasks 16",
        "steps drawn, code 7",
    ];
    assert_eq!(less.missing(), missing);
}

#[test]
fn kept_cases() {
    let with =
        |program: fn(&[String], &[u8]) -> Ended| kept(&|words, file| Ok(program(words, file)));
    assert_eq!(with(by_model), Ok(cases().len()));
    assert!(with(|_, _| ended(true, Vec::new(), String::new())).is_err());
    let signs = |words: &[String], file: &[u8]| {
        let words: Vec<_> = words.iter().map(|word| word.replace('+', "")).collect();
        by_model(&words, file)
    };
    assert!(with(signs).is_err_and(|said| said.starts_with("sign: ")));
}

/// Draws otherwise than it must.
#[test]
fn each_wrong_draw_is_noticed() {
    for wrong in WRONG {
        let program = |arguments: &[String], file: &[u8]| {
            told(load(arguments, file).map(|right| {
                let seed = arguments[0].parse().expect("a number");
                let run = Run::read(&right).expect("an accepted file");
                let steps = run.steps.len() as u32;
                drawn(&Load::of(seed, &run, steps), wrong).expect("a good one")
            }))
        };
        assert!(with(program).is_err(), "{wrong:?}");
    }
    assert_eq!(
        WRONG.iter().filter(|&&one| one == Wrong::Nothing).count(),
        0
    );
}

/// What is wrong, and a program that does it.
type Program = (&'static str, fn(&[String], &[u8]) -> Ended);

/// The model on other arguments.
fn on(words: &[String], file: &[u8], change: fn(&str) -> String) -> Ended {
    let words: Vec<String> = words.iter().map(|word| change(word)).collect();
    by_model(&words, file)
}

const OTHERS: [Program; 13] = [
    ("a byte more", |words, file| {
        let made = by_model(words, file);
        ended(made.well, [&made.output[..], &[0]].concat(), String::new())
    }),
    ("no status", |words, file| Ended {
        well: true,
        ..by_model(words, file)
    }),
    ("a message with more behind it", |words, file| {
        let made = by_model(words, file);
        let said = String::from_utf8(made.errors).expect("a message");
        ended(made.well, made.output, said.replace('\n', "; and more\n"))
    }),
    ("something written where refused", |words, file| {
        let made = by_model(words, file);
        match made.well {
            true => made,
            false => Ended {
                output: vec![1],
                ..made
            },
        }
    }),
    ("the first two arguments", |words, file| {
        by_model(&words[..words.len().min(2)], file)
    }),
    ("a sign", |words, file| {
        on(words, file, |word| word.replace(['+', '-'], ""))
    }),
    ("blanks", |words, file| {
        on(words, file, |word| word.trim().into())
    }),
    ("eleven digits", |words, file| {
        on(words, file, |word| match word.len() {
            11 => word[1..].into(),
            _ => word.into(),
        })
    }),
    ("nine digits", |words, file| {
        on(words, file, |word| match word.len() {
            10 => String::new(),
            _ => word.into(),
        })
    }),
    ("an empty one is 0", |words, file| {
        on(words, file, |word| match word {
            "" => "0".into(),
            _ => word.into(),
        })
    }),
    ("numbers come round", |words, file| {
        on(words, file, |word| match word.parse::<u64>() {
            Ok(number) => (number as u32).to_string(),
            Err(_) => word.into(),
        })
    }),
    ("4,097 steps", |words, file| match words {
        [seed, steps] if steps == "4097" => by_model(&[seed.clone(), "4096".into()], file),
        _ => by_model(words, file),
    }),
    (
        "the file before the arguments",
        |words, file| match Run::read(file) {
            Ok(_) => by_model(words, file),
            Err(refusal) => told(Err(crate::view::refused(refusal))),
        },
    ),
];

#[test]
fn each_other_wrong_program_is_noticed() {
    for (name, program) in OTHERS {
        let run = |words: &[String], file: &[u8]| Ok(program(words, file));
        assert!(kept(&run).is_err() || with(program).is_err(), "{name}");
    }
}
