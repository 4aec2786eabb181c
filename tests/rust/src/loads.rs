//! The program `load` (RULES 17.7): what it writes for its arguments and a run file, or the message;
//! written from the rules and crates/load/README.md, not from the program. `cases` has what is kept in
//! crates/load/cases; `loaded` holds the program to this on generated arguments and files.

pub mod cases;
pub mod loaded;

use crate::model::files::Run;
use crate::model::load::Load;
use crate::view::refused;

/// Said of arguments that are not what they must be.
pub const WANTED: &str =
    "two numbers are wanted, a seed up to 4294967295 and how many steps, up to 4096";

/// The most steps (RULES 1.3).
const STEPS: u32 = 4_096;

/// One to ten decimal digits, and nothing else; zeros may stand before.
fn number(word: &str) -> Option<u32> {
    let digits = word.bytes().all(|byte| byte.is_ascii_digit());
    match digits && (1..=10).contains(&word.len()) {
        true => word.parse().ok(),
        false => None,
    }
}

/// The load, or the message without the program's name. The arguments are judged before the file.
pub fn load<Word: AsRef<str>>(arguments: &[Word], file: &[u8]) -> Result<Vec<u8>, String> {
    let [seed, steps] = arguments else {
        return Err(WANTED.into());
    };
    let seed = number(seed.as_ref()).ok_or(WANTED)?;
    let steps = number(steps.as_ref()).ok_or(WANTED)?;
    if steps > STEPS {
        return Err(WANTED.into());
    }
    let run = Run::read(file).map_err(refused)?;
    Load::of(seed, &run, steps).file().map_err(refused)
}

#[cfg(test)]
mod tests {
    use super::*;
    use crate::folder::of_tree;

    #[test]
    fn numbers() {
        let good = [
            ("0", 0),
            ("7", 7),
            ("4096", 4_096),
            ("0000000000", 0),
            ("0000000042", 42),
            ("4294967295", u32::MAX),
        ];
        for (word, wanted) in good {
            assert_eq!(number(word), Some(wanted), "{word}");
        }
        let bad = [
            "",
            " ",
            " 1",
            "1 ",
            "1 2",
            "+1",
            "-1",
            "1a",
            "a",
            "0x1",
            "1.",
            "1,000",
            "1_000",
            "4294967296",
            "9999999999",
            "00000000000",
            "00000000001",
            "1\n",
            "\u{661}",
        ];
        for word in bad {
            assert_eq!(number(word), None, "{word}");
        }
    }

    #[test]
    fn arguments_before_the_file() {
        let wanted = Err(WANTED.to_string());
        let none: [&str; 0] = [];
        for file in [&[][..], &[1, 1, 1, 0, 0, 0, 1, 0]] {
            assert_eq!(load(&none, file), wanted);
            assert_eq!(load(&["1"], file), wanted);
            assert_eq!(load(&["1", "2", "3"], file), wanted);
            assert_eq!(load(&["1", "4097"], file), wanted);
            assert_eq!(load(&["4294967296", "1"], file), wanted);
        }
        let said = load(&["1", "4096"], &[]).expect_err("an empty file");
        assert_eq!(said, "refused 1: too short for its sizes");
        let longest = [&[8, 32, 16, 0, 16][..], &[0; 80_000]].concat();
        let said = load(&["1", "4096"], &longest).expect_err("a file that is too long");
        assert_eq!(said, "refused 2: too long");
    }

    /// Of the file's steps nothing is used, and N is not the file's.
    #[test]
    fn the_placement_alone() {
        let k9 = std::fs::read(of_tree("examples/k9.run")).expect("k9.run");
        let mut run = Run::read(&k9).expect("an accepted file");
        let file = load(&["2026", "12"], &k9).expect("a good one");
        assert_eq!(file[..5], [3, 2, 3, 12, 0]);
        assert_eq!((file.len(), &file[5..12]), (12 + 108, &k9[5..12]));
        run.steps.clear();
        assert_eq!(load(&["2026", "12"], &run.write()), Ok(file));
    }
}
