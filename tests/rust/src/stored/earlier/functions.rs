//! The stored runs of version 0.2.0. Then function 2 was today's function 5, and 5 was unknown, as 6 is
//! now: so a run with its functions put in today's numbers is answered as it was then. A run that
//! passes the top with function 2, or has a function 5, was worked out again; any other was answered as
//! before. The limit of 0.4.0 was that of 0.2.0 too, so all of this is with that one.

use super::{answered, checksum, named_then, read, statistics};
use crate::generate;
use crate::model::files::Run;
use crate::statistics::Sum;
use crate::stored;

/// Each run stored then, the checksum of its answer, and whether that was worked out again.
const RUNS: [(&str, u64, bool); 9] = [
    ("past1", 0x7E8D_30F0_8A50_FAF9, false),
    ("past2", 0xB34B_1BA8_14A0_0CE3, false),
    ("past3", 0x60C2_0533_8B8F_8E4B, false),
    ("outbox", 0x9C31_1A20_E8E0_6AEB, false),
    ("past4", 0x0FCB_6258_33EE_2434, false),
    ("held", 0x8175_916C_018C_6343, false),
    ("full1", 0xE96A_CDE3_3EA6_A5DC, true),
    ("full2", 0x8F1C_05E0_DD99_B7A9, true),
    ("guided", 0x783E_A9F9_1687_45B4, true),
];

/// The run with its functions in today's numbers, as they were meant then.
fn meant(mut run: Run) -> Run {
    for (code, argument) in &mut run.steps {
        if *code == 2 {
            argument[2] = match argument[2] {
                2 => 5,
                5 => 6,
                other => other,
            };
        }
    }
    run
}

/// What an accepted file was answered then.
fn answered_then(file: &[u8]) -> Vec<u8> {
    answered(&meant(read(file)))
}

/// Whether what version 0.4.0 answered is another.
fn differs(file: &[u8]) -> bool {
    answered(&read(file)) != answered_then(file)
}

/// Whether an accepted file passes the top with function 2, or has a function 5.
fn touched(file: &[u8]) -> bool {
    let run = read(file);
    let made = statistics(&run).sums;
    let sums = [(2, Sum::OnePast), (2, Sum::FurtherPast)];
    let mut steps = run.steps.iter();
    sums.iter().any(|sum| made.contains_key(sum))
        || steps.any(|&(code, argument)| code == 2 && argument[2] == 5)
}

#[test]
fn stored_answers() {
    for (name, then, again) in RUNS {
        let file = stored::file(name);
        assert_eq!(checksum(&answered_then(&file)), then, "{name}");
        assert_eq!(touched(&file), again, "{name}");
        assert_eq!(differs(&file), again, "{name}");
    }
}

#[test]
fn named_runs() {
    let accepted = named_then().into_iter().filter(|run| run.answer.is_ok());
    for run in accepted {
        let again = run.name == "counter";
        assert_eq!(touched(&run.file), again, "{}", run.name);
        assert_eq!(differs(&run.file), again, "{}", run.name);
    }
}

/// On any files: what is not touched is answered as it was.
#[test]
fn generated_runs() {
    let files = (0..400).map(|item| generate::file(3, item).1);
    let accepted = files.filter(|file| Run::read(file).is_ok());
    let (touched, others): (Vec<_>, Vec<_>) = accepted.partition(|file| touched(file));
    assert!(touched.len() > 50 && others.len() > 50);
    assert!(!others.iter().any(|file| differs(file)));
    assert!(touched.iter().filter(|file| differs(file)).count() > 50);
}
