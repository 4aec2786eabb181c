//! The program `picture` on generated files, against the model: what docs/PICTURES.md says that programs can
//! read in a diagram, and what is in a waveform file. Written from that document and the rules, not from the
//! program.
//!
//! `expected` makes the marks of a run (`marks`), following its messages (`followed`), and `waves` its
//! signals; `xml` and `vcd` read what the program wrote, `page` and `waves` compare it, `stands_alone` says
//! whether a page needs anything else, and `compared` counts.

pub mod compared;
mod expected;
mod followed;
mod marks;
mod page;
mod stands_alone;
#[cfg(test)]
mod tests;
mod vcd;
mod waves;
mod xml;

use compared::Compared;
use marks::Marks;
use page::Document;
use waves::Waves;

use crate::model::files::{answer_file, Run};
use crate::model::Refusal;
use crate::roundtrip::Ended;

/// Runs the program with these arguments on an input.
pub type Runner<'a> = &'a dyn Fn(&[String], &[u8]) -> Result<Ended, String>;

/// What the program is asked for.
#[derive(Clone, Copy, Debug, PartialEq, Eq)]
enum Picture {
    Drawn(Document),
    Waves,
}

/// By its first argument.
const PICTURES: [(&str, Picture); 3] = [
    ("diagram", Picture::Drawn(Document::Page)),
    ("figure", Picture::Drawn(Document::Figure)),
    ("waves", Picture::Waves),
];

/// What is said of a file that is refused (RULES 8.2).
const PHRASES: [(Refusal, &str); 4] = [
    (1, "the file is too short for its sizes"),
    (2, "the file is too long for its sizes"),
    (3, "a size is out of range"),
    (4, "a copy, a home or a primary is misplaced"),
];

/// What pictures of a run must show.
struct Wanted {
    run: Run,
    marks: Marks,
    waves: Waves,
    answer: Vec<u8>,
}

impl Wanted {
    fn of(file: &[u8]) -> Result<Wanted, Refusal> {
        let run = Run::read(file)?;
        Ok(Wanted {
            marks: expected::marks(&run),
            waves: waves::waves(&run),
            answer: answer_file(file)?,
            run,
        })
    }

    /// Says the first thing in which a picture differs.
    fn compare(&self, picture: Picture, text: &str) -> Result<(), String> {
        match picture {
            Picture::Drawn(document) => page::compare(document, text, &self.marks, &self.answer),
            Picture::Waves => waves::compare(text, &self.waves),
        }
    }
}

/// A picture, and nothing on standard error.
fn drawn(picture: Picture, ended: &Ended, wanted: &Wanted) -> Result<(), String> {
    if !ended.well || !ended.errors.is_empty() {
        let said = String::from_utf8_lossy(&ended.errors);
        return Err(format!("it ends badly or says: {}", said.trim_end()));
    }
    let text = std::str::from_utf8(&ended.output);
    let text = text.map_err(|error| format!("no text: {error}"))?;
    wanted.compare(picture, text)
}

/// Status 1, nothing written, and a message with the refusal.
fn refused(ended: &Ended, refusal: Refusal) -> Result<(), String> {
    let mut phrases = PHRASES.iter();
    let phrase = phrases.find(|(number, _)| *number == refusal);
    let (_, phrase) = phrase.expect("a refusal of a file");
    let wanted = format!("refused with {refusal}: {phrase}");
    if !ended.output.is_empty() {
        return Err(format!("it writes, though {wanted}"));
    }
    if ended.well || ended.status != Some(1) {
        return Err(format!("its status is {:?}, though {wanted}", ended.status));
    }
    let said = String::from_utf8_lossy(&ended.errors);
    match said.contains(&wanted) {
        true => Ok(()),
        false => Err(format!("it says: {}, not: {wanted}", said.trim_end())),
    }
}

/// Compares all pictures of one file.
pub fn compare(file: &[u8], run: Runner, compared: &mut Compared) -> Result<(), String> {
    let wanted = Wanted::of(file);
    for (word, picture) in PICTURES {
        let ended = run(&[word.into(), "-".into()], file)?;
        match &wanted {
            Ok(wanted) => drawn(picture, &ended, wanted),
            Err(refusal) => refused(&ended, *refusal),
        }
        .map_err(|why| format!("{word}: {why}"))?;
    }
    match wanted {
        Ok(Wanted {
            run, marks, waves, ..
        }) => compared.add(&run, &marks, &waves),
        Err(refusal) => compared.add_refused(refusal),
    }
    Ok(())
}
