//! An answer file in sentences, as the program `say` prints them: written from
//! crates/say/README.md and RULES 4, not from the program. `cases` has the files that are kept in
//! crates/say/cases.

pub mod cases;

use std::cmp::Ordering;

use crate::model::results::taken;
use crate::model::tally::Tally;
use crate::sentence::sentence;

/// The most steps of an answer file (RULES 7.9).
const STEPS: usize = 4_096;

/// What the program prints for an input, or why that is no answer file.
pub fn say(file: &[u8]) -> Result<String, &'static str> {
    let short = "the answer file is cut short";
    let &[low, high, ref rest @ ..] = file else {
        return Err(short);
    };
    let steps = u16::from_le_bytes([low, high]) as usize;
    if steps > STEPS {
        return Err("the answer file has more than 4096 steps");
    }
    match rest.len().cmp(&(5 * steps)) {
        Ordering::Less => return Err(short),
        Ordering::Greater => return Err("the answer file is too long"),
        Ordering::Equal => {}
    }
    let mut text = String::new();
    let mut tally = Tally::default();
    for (step, &result) in rest[..steps].iter().enumerate() {
        tally.count(result);
        if !taken(result) {
            let said = sentence(step as u32, result);
            text += &said.ok_or("a result has no phrase")?;
            text.push('\n');
        }
    }
    let Tally { taken, refused } = tally;
    Ok(text + &format!("taken {taken}, refused {refused}\n"))
}

#[cfg(test)]
mod tests {
    use super::*;
    use crate::folder;
    use crate::model::files::program_output;
    use crate::named;

    fn of(name: &str) -> Result<String, &'static str> {
        let mut runs = named::runs().into_iter();
        let run = runs.find(|run| run.name == name).expect("a named run");
        say(&program_output(&run.file))
    }

    /// Written out by hand.
    #[test]
    fn named_runs() {
        let says = |text: &str| Ok(text.to_string());
        assert_eq!(of("K1"), says("taken 0, refused 0\n"));
        assert_eq!(of("K2"), says("taken 6, refused 0\n"));
        assert_eq!(of("K3"), Err("the answer file is cut short"));
        let k7 = "step 1: there is no such register
step 2: the task has an open request
taken 1, refused 2
";
        assert_eq!(of("K7"), says(k7));
        let k9 = "step 12: the card has nothing to deliver
taken 15, refused 1
";
        assert_eq!(of("K9"), says(k9));
    }

    /// Under 2 bytes, N, the length, the results.
    #[test]
    fn order() {
        let why = |file: &[u8]| say(file).expect_err("no answer file");
        assert_eq!(why(&[]), "the answer file is cut short");
        assert_eq!(why(&[255]), "the answer file is cut short");
        let many = "the answer file has more than 4096 steps";
        assert_eq!(why(&[1, 16]), many, "before cut short");
        assert_eq!(why(&[255; 400_000]), many, "before too long");
        assert_eq!(why(&[0, 16]), "the answer file is cut short", "4,096 steps");
        assert_eq!(why(&[1, 0, 36, 0, 0, 0]), "the answer file is cut short");
        assert_eq!(
            why(&[1, 0, 36, 0, 0, 0, 0, 0]),
            "the answer file is too long"
        );
        assert_eq!(why(&[1, 0, 36, 0, 0, 0, 0]), "a result has no phrase");
        assert_eq!(why(&[0, 0, 0]), "the answer file is too long");
        let held = "taken 1, refused 0\n".to_string();
        assert_eq!(say(&[1, 0, 100, 0, 0, 0, 0]), Ok(held));
    }

    /// What rt gives the program, and what it must print: K9.
    #[test]
    fn the_example_of_the_crate() {
        let read = |name| std::fs::read(folder::of_tree("crates/say").join(name)).expect(name);
        let mut runs = named::runs().into_iter();
        let k9 = runs.find(|run| run.name == "K9").expect("a named run");
        assert_eq!(read("stdin"), k9.answer.expect("an answer"));
        assert_eq!(read("stdout"), of("K9").expect("a text").into_bytes());
    }
}
