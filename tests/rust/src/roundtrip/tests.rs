//! The model's own programs come back, and each with one thing wrong is noticed.

use super::*;
use crate::statistics::{none_missing, FILES};

fn ended(well: bool, output: Vec<u8>, errors: String) -> Ended {
    let errors = errors.into_bytes();
    Ended {
        well,
        status: Some(i32::from(!well)),
        output,
        errors,
    }
}

fn writes(output: Vec<u8>) -> Ended {
    ended(true, output, String::new())
}

/// What `compose` does by the model.
fn by_model(text: &[u8]) -> Ended {
    match compose::compose(text) {
        Ok(file) => writes(file),
        Err(why) => ended(false, Vec::new(), format!("compose: {why}\n")),
    }
}

/// A run with the model's `view` and this `compose`.
fn with(composes: impl Fn(&[u8]) -> Ended + Sync) -> Result<Compared, String> {
    all(1, FILES, &|name, input| match name {
        "view" => Ok(writes(view(input).into_bytes())),
        _ => Ok(composes(input)),
    })
}

#[test]
fn files_and_texts_reach_everything() {
    let compared = with(by_model).expect("the model's own");
    assert_eq!(compared.files as u64, FILES);
    assert_eq!(none_missing(compared.missing()), Ok(()));
    let mut less = compared.clone();
    less.sizes.remove(&("steps", 4_096));
    less.shown.remove("  bytes ");
    less.shown.remove(" held\n");
    less.shown.remove(" taken, found ");
    less.shown.remove(&format!("  {:<22}", "or"));
    less.spoiled.remove("line L is one too many");
    let missing = [
        "files with steps 4096",
        "steps shown as or",
        "steps shown as bytes",
        "steps shown as taken, found",
        "steps shown as held",
        "spoiled texts: line L is one too many",
    ];
    assert_eq!(less.missing(), missing);
}

#[test]
fn texts_by_hand() {
    let with = |composes: fn(&[u8]) -> Ended| cases(&|_, text| Ok(composes(text)));
    assert_eq!(with(by_model), Ok(compose::cases::cases().len()));
    let forgives = with(|text| by_model(&text.to_ascii_lowercase()));
    assert!(forgives.is_err_and(|said| said.starts_with("upper_case: ")));
    let silent = with(|_| writes(Vec::new()));
    assert!(silent.is_err_and(|said| said.contains("0 bytes for ")));
}

#[test]
fn a_wrong_view_is_noticed() {
    let wrong = |change: fn(Ended) -> Ended| {
        all(1, 20, &|name, input| match name {
            "view" => Ok(change(writes(view(input).into_bytes()))),
            _ => Ok(by_model(input)),
        })
    };
    let of = |change| wrong(change).expect_err("something wrong");
    assert!(of(|e| ended(false, e.output, String::new())).contains("view: it ends badly"));
    assert!(
        of(|e| ended(true, e.output, "well".into())).contains("view: it ends badly or says: well")
    );
    // Nothing that `compose` would miss: other answers, and a line more.
    fn other(e: Ended, from: &str, to: &str) -> Ended {
        let text = String::from_utf8(e.output).expect("a text");
        writes(text.replace(from, to).into())
    }
    let answers = [
        of(|e| other(e, " held\n", " taken\n")),
        of(|e| other(e, ", found ", ", value ")),
        of(|e| other(e, ", found 0\n", "\n")),
    ];
    assert!(answers.iter().all(|said| said.contains("view: ")));
    let said = of(|e| writes([&e.output[..], b"\n"].concat()));
    assert!(said.contains("view: ") && said.contains("the first other one at None"));
}

/// What is wrong, and a `compose` that does it.
type Wrong = (&'static str, fn(&[u8]) -> Ended);

/// The model on another text.
fn on(lines: impl Fn(&str) -> String, text: &[u8]) -> Ended {
    let text: String = text.iter().map(|&byte| byte as char).collect();
    let text = text.split('\n').map(lines).collect::<Vec<_>>().join("\n");
    by_model(&text.chars().map(|c| c as u8).collect::<Vec<u8>>())
}

const WRONG: [Wrong; 16] = [
    ("a byte more", |text| {
        let mut made = by_model(text);
        made.output.extend(made.well.then_some(0));
        made
    }),
    ("a status where it is written", |text| Ended {
        well: false,
        ..by_model(text)
    }),
    ("no status", |text| Ended {
        well: true,
        ..by_model(text)
    }),
    ("something written where refused", |text| {
        let made = by_model(text);
        match made.well {
            true => made,
            false => Ended {
                output: vec![3],
                ..made
            },
        }
    }),
    ("a word on standard error", |text| {
        let made = by_model(text);
        match made.well {
            true => ended(true, made.output, "well".into()),
            false => made,
        }
    }),
    ("another message", |text| {
        let Ended {
            well,
            output,
            errors,
            ..
        } = by_model(text);
        let errors = String::from_utf8(errors).expect("a message");
        ended(
            well,
            output,
            errors.replace("out of place", "not understood"),
        )
    }),
    ("an empty line not counted", |text| {
        match text.split_first() {
            Some((b'\n', rest)) => by_model(rest),
            _ => by_model(text),
        }
    }),
    ("any case", |text| by_model(&text.to_ascii_lowercase())),
    ("lines of any length", |text| {
        on(|line| line.trim_end().to_string(), text)
    }),
    ("lines of 254 bytes", |text| {
        let long = |line: &str| if line.len() == 255 { "x" } else { line }.to_string();
        on(long, text)
    }),
    ("sizes not held to the text", |text| {
        on(
            |line| match line.strip_prefix("cards ") {
                Some(rest) => "cards ".to_string() + rest.split([' ', ',']).next().unwrap_or(""),
                None => line.to_string(),
            },
            text,
        )
    }),
    ("numbers of steps not looked at", |text| {
        on(
            |line| {
                line.trim_start_matches([' ', '0', '1', '2', '3', '4', '5', '6', '7', '8', '9'])
                    .to_string()
            },
            text,
        )
    }),
    ("other blanks", |text| {
        let blank = |byte: &u8| match byte {
            0x0B | 0x0C | 0xA0 => b' ',
            byte => *byte,
        };
        by_model(&text.iter().map(blank).collect::<Vec<u8>>())
    }),
    ("numbers of 32 bits come round", |text| {
        on(
            |line| line.replace("4294967296", "0").replace("4294967297", "1"),
            text,
        )
    }),
    ("held is no answer", |text| {
        on(|line| line.replace(" held", " now"), text)
    }),
    ("the last line needs a newline", |text| {
        let end = text.iter().rposition(|&byte| byte == b'\n');
        by_model(&text[..end.map_or(0, |end| end + 1)])
    }),
];

#[test]
fn each_wrong_compose_is_noticed() {
    for (name, composes) in WRONG {
        assert!(with(composes).is_err(), "{name}");
    }
}

/// More than a pipe holds, both ways; a program that does not read; one that is not there.
#[cfg(unix)]
#[test]
fn programs_are_run() {
    let bin = Path::new("/bin");
    let input = vec![b'a'; 1_000_000];
    let cat = run(bin, "cat", &input).expect("a program");
    assert!(cat.well && cat.output == input && cat.errors.is_empty());
    assert_eq!(cat.status, Some(0));
    let fails = run(bin, "false", &input).expect("a program");
    assert!(!fails.well && fails.output.is_empty());
    assert_eq!(fails.status, Some(1));
    let says = run(bin, "sh", b"echo out; echo err >&2; kill -11 $$").expect("a program");
    assert!(!says.well && says.output == b"out\n" && says.errors == b"err\n");
    assert_eq!(says.status, None, "a signal");
    assert!(run(bin, "no such program", b"").is_err());
    let words = ["-c", "printf '%s.' \"$@\"", "sh", "", " a b", "\u{661}"].map(String::from);
    let said = run_with(bin, "sh", &words, b"").expect("a program");
    assert!(said.well && said.output == ". a b.\u{661}.".as_bytes());
}
