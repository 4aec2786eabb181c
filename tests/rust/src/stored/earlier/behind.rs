//! The stored runs of version 0.4.0, when a card could be 64 broadcasts behind (RULES 7.5). A run in
//! which some card was then further behind than it can be now is worked out again; any other is
//! answered as it was.

use super::{answered, before_held, checksum, read, statistics, FILES};
use crate::generate;
use crate::model::channel::BEHIND;
use crate::model::files::{program_output, Run};
use crate::{named, stored};

/// Each run stored then, the checksum of its answer, and whether that is worked out again.
const RUNS: [(&str, u64, bool); 12] = [
    ("past1", 0x7E8D_30F0_8A50_FAF9, true),
    ("past2", 0xB34B_1BA8_14A0_0CE3, true),
    ("past3", 0x60C2_0533_8B8F_8E4B, true),
    ("past4", 0x0FCB_6258_33EE_2434, true),
    ("outbox", 0x9C31_1A20_E8E0_6AEB, false),
    ("held", 0x8175_916C_018C_6343, false),
    ("counts", 0x463A_4689_BE16_9CFA, false),
    ("full1", 0x2C8B_8F57_1060_8B70, true),
    ("full2", 0x41A9_17F7_8266_ED46, true),
    ("guided", 0x591A_F6FD_A77D_C020, false),
    ("full3", 0x3ED2_BB1E_70F6_5AC6, true),
    ("mixed", 0x71CF_E5ED_EEFB_FB17, false),
];

/// Whether some card was then further behind than it can be now.
fn past(file: &[u8]) -> bool {
    statistics(&read(file)).largest.behind > BEHIND
}

/// The results of then and now at the first step where they are not the same.
fn changed(file: &[u8]) -> Option<(u8, u8)> {
    let run = read(file);
    let now = before_held(&run, program_output(file));
    let mut bytes = answered(&run).into_iter().zip(now);
    // The results come before the values (RULES 4.1), so this is one of them.
    bytes.find(|(then, now)| then != now)
}

/// A broadcast that passed then and is refused now.
const REFUSED: (u8, u8) = (0, 34);

#[test]
fn stored_answers() {
    let files = FILES.iter().take_while(|file| file.0 != "k11");
    assert!(RUNS.iter().map(|run| run.0).eq(files.map(|file| file.0)));
    for (name, then, again) in RUNS {
        let file = stored::file(name);
        assert_eq!(checksum(&answered(&read(&file))), then, "{name}");
        assert_eq!(past(&file), again, "{name}");
        assert_eq!(changed(&file), again.then_some(REFUSED), "{name}");
    }
}

/// Of the named runs only K11, as it is now.
#[test]
fn named_runs() {
    let accepted = named::runs().into_iter().filter(|run| run.answer.is_ok());
    for run in accepted {
        let again = run.name == "K11";
        assert_eq!(past(&run.file), again, "{}", run.name);
        let wanted = again.then_some(REFUSED);
        assert_eq!(changed(&run.file), wanted, "{}", run.name);
    }
}

/// On any files: those that went past the limit of now are answered otherwise, and no other.
#[test]
fn generated_runs() {
    let files = (0..800).map(|item| generate::file(4, item).1);
    let accepted = files.filter(|file| Run::read(file).is_ok());
    let (past, others): (Vec<_>, Vec<_>) = accepted.partition(|file| past(file));
    assert!(past.len() > 50 && others.len() > 50);
    assert!(past.iter().all(|file| changed(file) == Some(REFUSED)));
    assert!(others.iter().all(|file| changed(file).is_none()));
}
