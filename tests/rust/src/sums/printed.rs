//! The program `sums` on generated files, refused ones too, against the model's text; and what these
//! must reach.

use std::fmt;

use super::sums;
use crate::generate;
use crate::logs::Logs;
use crate::model::files::Run;
use crate::random::Random;
use crate::roundtrip::{wrote, Runner};

/// What was compared.
#[derive(Clone, Debug, Default, PartialEq, Eq)]
pub struct Compared {
    pub files: usize,
    pub refused: usize,
    /// Registers with a log, and those with a log of several cards.
    pub logs: usize,
    pub several: usize,
}

impl Compared {
    fn add(&mut self, file: &[u8]) {
        self.files += 1;
        let Ok(run) = Run::read(file) else {
            self.refused += 1;
            return;
        };
        for log in Logs::of(&run).0.logs {
            self.logs += usize::from(!log.cards.is_empty());
            self.several += usize::from(log.cards.iter().any(|&card| card != log.cards[0]));
        }
    }

    /// What came too seldom.
    pub fn missing(&self) -> Vec<String> {
        let counts = [
            ("refused files", self.refused, 20),
            ("accepted files", self.files - self.refused, 500),
            ("logs", self.logs, 2_000),
            ("logs of several cards", self.several, 1_000),
        ];
        let few = counts
            .into_iter()
            .filter(|&(_, count, least)| count < least);
        few.map(|(name, count, _)| format!("{name}: only {count}"))
            .collect()
    }
}

impl fmt::Display for Compared {
    fn fmt(&self, f: &mut fmt::Formatter) -> fmt::Result {
        let Compared {
            files,
            refused,
            logs,
            several,
        } = self;
        write!(f, "sums of {files} files, {refused} of them refused; logs {logs}, of several cards {several}")
    }
}

/// A generated file: as it comes, or with function 5 for the updates of some or all registers.
fn file(random: &mut Random) -> Vec<u8> {
    let (_, file) = generate::file(random.bits(), 0);
    let some = random.bits() as u32;
    let picked = random.pick(&[0, u32::MAX, some]);
    match Run::read(&file) {
        Ok(mut run) => {
            generate::adding(&mut run, |register| picked >> (register % 32) & 1 == 1);
            run.write()
        }
        Err(_) => file,
    }
}

/// Compares on one item of a seed.
pub fn compare(random: &mut Random, run: Runner, compared: &mut Compared) -> Result<(), String> {
    let file = file(random);
    wrote("sums", run("sums", &file)?, sums(&file).as_bytes())?;
    compared.add(&file);
    Ok(())
}

#[cfg(test)]
mod tests {
    use super::*;
    use crate::roundtrip::Ended;

    /// The items of a seed with this program.
    fn with(program: impl Fn(&[u8]) -> String + Sync) -> Result<Compared, String> {
        let mut compared = Compared::default();
        for item in 0..1_000 {
            let run = |_: &str, input: &[u8]| {
                Ok(Ended {
                    well: true,
                    status: Some(0),
                    output: program(input).into_bytes(),
                    errors: Vec::new(),
                })
            };
            compare(&mut Random::new(7, item), &run, &mut compared)?;
        }
        Ok(compared)
    }

    #[test]
    fn enough_is_reached() {
        let compared = with(sums).expect("the model's own");
        assert_eq!(compared.missing(), [""; 0]);
        let none = Compared::default();
        assert_eq!(none.missing().len(), 4);
    }

    #[test]
    fn a_wrong_program_is_noticed() {
        let no_last = |input: &[u8]| {
            sums(input)
                .lines()
                .map(|line| format!("{line} \n"))
                .collect()
        };
        assert!(with(no_last).is_err());
        // A number of ten digits that loses its first one.
        let short = |input: &[u8]| sums(input).replace("  4", "   ");
        assert!(with(short).is_err());
    }
}
