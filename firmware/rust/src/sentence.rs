//! A refusal in a sentence.

use core::fmt;
use core::ops::Deref;

use crate::{library, raw, Refusal, SENTENCE_MAX};

/// A sentence that says why a step was refused: a text of at most [`SENTENCE_MAX`] bytes, without
/// an allocator. It is a `str` ([`Deref`]) and prints as one; [`sentence`] makes it.
#[derive(Clone, Copy, PartialEq, Eq, Hash)]
pub struct Sentence {
    /// The text, then zeros.
    bytes: [u8; SENTENCE_MAX],
    length: u8,
}

impl Sentence {
    /// The text.
    pub fn as_str(&self) -> &str {
        let text = &self.bytes[..usize::from(self.length)];
        // It is ASCII: that was looked at when it was made.
        core::str::from_utf8(text).unwrap_or("")
    }
}

impl Deref for Sentence {
    type Target = str;

    fn deref(&self) -> &str {
        self.as_str()
    }
}

impl fmt::Display for Sentence {
    fn fmt(&self, f: &mut fmt::Formatter<'_>) -> fmt::Result {
        f.pad(self)
    }
}

/// As the text's.
impl fmt::Debug for Sentence {
    fn fmt(&self, f: &mut fmt::Formatter<'_>) -> fmt::Result {
        fmt::Debug::fmt(self.as_str(), f)
    }
}

/// Why the step at a place, counted from 0, was refused (RULES chapter 14). There is a sentence
/// for every refusal of a step, 6 to 35, and none for any other.
///
/// ```
/// use gondzselu::{sentence, Refusal};
///
/// let words = sentence(12, Refusal::InboxEmpty).expect("a refusal of a step");
/// assert_eq!(words.as_str(), "step 12: the card has nothing to deliver");
/// assert_eq!(sentence(12, Refusal::FileTooLong), None);
/// ```
///
/// The library's texts are ASCII, which is proved and yet looked at here: bytes that are no such
/// text would give no sentence.
///
/// # Panics
///
/// If the library linked is not the one that this crate is for
/// ([`check_library`](crate::check_library)).
pub fn sentence(step: u32, refusal: Refusal) -> Option<Sentence> {
    let mut bytes = [0; SENTENCE_MAX];
    made(sentence_bytes(step, refusal.number(), &mut bytes), bytes)
}

/// The sentence in bytes that the library wrote, with the number and the length that it gave. None
/// if it is refused, and none if that length or those bytes are no sentence.
fn made((refusal, length): (u8, u32), bytes: [u8; SENTENCE_MAX]) -> Option<Sentence> {
    let length = u8::try_from(length).ok()?;
    let text = bytes.get(..usize::from(length))?;
    (refusal == 0 && text.is_ascii()).then_some(Sentence { bytes, length })
}

/// [`sentence`] into an output that is lent: what the library gives, 0 or the refusal of a
/// sentence, and the length of the text, which is at the output's start. The rest of the output
/// stays as it was.
///
/// Refusals: 36 for a number that no step is refused with, then 5 for an output that is shorter
/// than the text; [`SENTENCE_MAX`] bytes are always enough. The length is then 0, and the whole
/// output stays as it was.
///
/// ```
/// use gondzselu::sentence_bytes;
///
/// let mut output = [b'.'; 28];
/// assert_eq!(sentence_bytes(7, 23, &mut output), (0, 28));
/// assert_eq!(&output, b"step 7: no requests are left");
/// assert_eq!(sentence_bytes(10, 23, &mut output), (5, 0));
/// assert_eq!([0, 100].map(|taken| sentence_bytes(10, taken, &mut output)), [(36, 0); 2]);
/// ```
///
/// # Panics
///
/// As [`sentence`].
pub fn sentence_bytes(step: u32, refusal: u8, output: &mut [u8]) -> (u8, u32) {
    library::require();
    raw::sentence(step, refusal, output)
}

#[cfg(test)]
mod tests {
    extern crate std;

    use super::*;
    use std::format;

    #[test]
    fn it_is_a_text() {
        let words = sentence(0, Refusal::NoRequestLeft).expect("a sentence");
        assert_eq!(&*words, "step 0: no requests are left");
        assert_eq!(format!("{words}"), *words);
        assert_eq!(format!("{words:.6}|{words:>30}|").len(), 6 + 1 + 30 + 1);
        assert_eq!(format!("{words:?}"), "\"step 0: no requests are left\"");
        assert_ne!(sentence(1, Refusal::NoRequestLeft), Some(words));
        let longest = sentence(u32::MAX, Refusal::TooManyUndelivered);
        assert_eq!(longest.map(|words| words.len()), Some(SENTENCE_MAX));
    }

    /// What a library that is not the proved one might give.
    #[test]
    fn what_is_no_text_is_no_sentence() {
        let mut bytes = [b'a'; SENTENCE_MAX];
        assert_eq!(made((0, 3), bytes).as_deref(), Some("aaa"));
        assert_eq!(made((0, 0), bytes).as_deref(), Some(""));
        for given in [(5, 3), (0, 56), (0, 256), (0, u32::MAX)] {
            assert_eq!(made(given, bytes), None);
        }
        bytes[2] = 0xC3;
        assert_eq!(made((0, 3), bytes), None);
        assert_eq!(made((0, 2), bytes).as_deref(), Some("aa"));
    }
}
