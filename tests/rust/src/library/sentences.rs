//! The library's sentences against the model's: every refusal, steps about every power of ten,
//! outputs of every length.

use gondzselu::Refusal;

use crate::sentence::{sentence, sentence_into, steps};

/// How far lent outputs go past a text; a number without a phrase gets outputs up to the longest
/// text and as far past it.
const PAST: usize = 9;
const LONGEST: usize = 55;

/// Bytes before and after the lent output that nobody may write.
const FENCE: usize = 32;

#[derive(Clone, Copy, Debug, Default)]
pub struct Compared {
    pub steps: usize,
    pub calls: usize,
}

/// Compares all; says what differs.
pub fn compare() -> Result<Compared, String> {
    let mut compared = Compared::default();
    for step in steps() {
        for refusal in 0..=255 {
            let text = sentence(step, refusal);
            let said = |words| format!("step {step}, refusal {refusal}: {words}");
            for length in 0..=text.as_ref().map_or(LONGEST, String::len) + PAST {
                compare_lent(step, refusal, length)
                    .map_err(|words| said(format!("{length} bytes lent: {words}")))?;
                compared.calls += 1;
            }
            compare_typed(step, refusal, text).map_err(said)?;
        }
        compared.steps += 1;
    }
    Ok(compared)
}

/// A page with an output of so many bytes in its middle; every byte is none of a text, and another
/// than the next.
fn page(length: usize) -> Vec<u8> {
    (0..FENCE + length + FENCE)
        .map(|at| 128 | at as u8)
        .collect()
}

/// The answer, and the whole page: the text, and all else as it was.
fn compare_lent(step: u32, refusal: u8, length: usize) -> Result<(), String> {
    let (mut found, mut wanted) = (page(length), page(length));
    let lent = FENCE..FENCE + length;
    let answer = gondzselu::sentence_bytes(step, refusal, &mut found[lent.clone()]);
    let expected = sentence_into(step, refusal, &mut wanted[lent]);
    if answer != expected {
        return Err(format!("{answer:?}, not {expected:?}"));
    }
    match (0..wanted.len()).find(|&at| found[at] != wanted[at]) {
        None => Ok(()),
        Some(at) => {
            let (place, found, wanted) = (at as isize - FENCE as isize, found[at], wanted[at]);
            Err(format!("byte {place}: {found}, not {wanted}"))
        }
    }
}

/// The sentence by the crate's type for it.
fn compare_typed(step: u32, refusal: u8, text: Option<String>) -> Result<(), String> {
    let found =
        Refusal::from_number(refusal).and_then(|refusal| gondzselu::sentence(step, refusal));
    let shown = found.as_ref().map(|sentence| sentence.to_string());
    let read = found.as_ref().map(|sentence| -> &str { sentence });
    match shown == text && read == text.as_deref() {
        true => Ok(()),
        false => Err(format!("{shown:?} and {read:?}, not {text:?}")),
    }
}
