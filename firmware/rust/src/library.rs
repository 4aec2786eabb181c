//! The library that is linked: is it the one that this crate is written for?

use core::error::Error;
use core::fmt;

use crate::{raw, CHANNEL_WORDS, REGISTERS_WORDS};

/// The version of this crate, and of the library that it is for, as
/// `major * 1_000_000 + minor * 1_000 + patch`.
pub const VERSION: u32 = number(env!("CARGO_PKG_VERSION_MAJOR")) * 1_000_000
    + number(env!("CARGO_PKG_VERSION_MINOR")) * 1_000
    + number(env!("CARGO_PKG_VERSION_PATCH"));

const fn number(digits: &str) -> u32 {
    let digits = digits.as_bytes();
    let (mut number, mut i) = (0, 0);
    while i < digits.len() {
        number = 10 * number + (digits[i] - b'0') as u32;
        i += 1;
    }
    number
}

/// The version of the library that is linked, in the form of [`VERSION`]: 11000 is 0.11.0.
///
/// ```
/// assert_eq!(gondzselu::version(), gondzselu::VERSION);
/// ```
pub fn version() -> u32 {
    raw::version()
}

/// Another library than the one that this crate is for: what it says of itself.
#[derive(Clone, Copy, Debug, PartialEq, Eq)]
pub struct OtherLibrary {
    /// Its version, in the form of [`VERSION`].
    pub version: u32,
    /// Its registers' memory, in words.
    pub registers_words: usize,
    /// Its channel's memory, in words.
    pub channel_words: usize,
}

impl fmt::Display for OtherLibrary {
    fn fmt(&self, f: &mut fmt::Formatter<'_>) -> fmt::Result {
        let own = dotted(VERSION);
        let other = dotted(self.version);
        write!(
            f,
            "gondzselu {}.{}.{} (memories of {REGISTERS_WORDS} and {CHANNEL_WORDS} words) is \
             linked with a library {}.{}.{} (memories of {} and {} words)",
            own[0],
            own[1],
            own[2],
            other[0],
            other[1],
            other[2],
            self.registers_words,
            self.channel_words
        )
    }
}

impl Error for OtherLibrary {}

fn dotted(version: u32) -> [u32; 3] {
    [
        version / 1_000_000,
        version / 1_000 % 1_000,
        version % 1_000,
    ]
}

/// Checks that the library linked has this crate's version and memories of the same sizes. It
/// costs three calls that give a number.
///
/// Who starts a store, answers, writes or draws a file, or adds up a log need not call this: it is
/// checked there, with a panic where they differ. A program that would rather stop in its own way
/// calls it first.
///
/// ```
/// assert_eq!(gondzselu::check_library(), Ok(()));
/// ```
pub fn check_library() -> Result<(), OtherLibrary> {
    let linked = OtherLibrary {
        version: raw::version(),
        registers_words: raw::registers_words(),
        channel_words: raw::channel_words(),
    };
    let wanted = OtherLibrary {
        version: VERSION,
        registers_words: REGISTERS_WORDS,
        channel_words: CHANNEL_WORDS,
    };
    if linked == wanted {
        Ok(())
    } else {
        Err(linked)
    }
}

/// Panics where `check_library` finds another library.
pub(crate) fn require() {
    if let Err(other) = check_library() {
        differ(other);
    }
}

#[cold]
fn differ(other: OtherLibrary) -> ! {
    panic!("{other}");
}

#[cfg(test)]
mod tests {
    extern crate std;

    use super::*;
    use std::string::ToString;

    #[test]
    fn a_version_is_one_number() {
        let [major, minor, patch] = dotted(VERSION);
        let words = std::format!("{major}.{minor}.{patch}");
        assert_eq!(words, env!("CARGO_PKG_VERSION"));
        assert_eq!(dotted(12_034_567), [12, 34, 567]);
    }

    #[test]
    fn another_library_is_told_in_words() {
        let other = OtherLibrary {
            version: 2_030,
            registers_words: 593,
            channel_words: 1372,
        };
        let words = other.to_string();
        assert!(words.ends_with("a library 0.2.30 (memories of 593 and 1372 words)"));
    }
}
