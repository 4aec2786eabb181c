//! Sizes and limits (RULES 1.3, 3.2, 4.1, 7.5, 7.8, 11.1, 14.6).

/// The registers' memory of a store, in words of 32 bits.
pub const REGISTERS_WORDS: usize = 593;

/// The channel's memory of a store, in words of 32 bits.
pub const CHANNEL_WORDS: usize = 1284;

/// The most cards of a placement; at least one.
pub const MAX_CARDS: usize = 8;

/// The most registers of a placement; at least one.
pub const MAX_REGISTERS: usize = 32;

/// The most tasks of a placement; at least one.
pub const MAX_TASKS: usize = 16;

/// The most steps of a run file; perhaps none. Steps taken one by one have no such limit.
pub const MAX_STEPS: usize = 4096;

/// The requests, of all tasks together, that one store takes from its start on. The next is
/// refused with 23.
pub const MAX_REQUESTS: u32 = 65_535;

/// The broadcasts made that a card has yet to take, at most. The dispatch of one more broadcast is
/// refused with 34.
pub const MAX_BEHIND: u32 = 24;

/// The bytes of the longest run file: an output of this length is never too short for one.
pub const LONGEST_FILE: usize = 5 + MAX_TASKS + 2 * MAX_REGISTERS + 9 * MAX_STEPS;

/// The bytes of the longest answer: an output of this length is never too short.
pub const LONGEST_ANSWER: usize = 2 + 5 * MAX_STEPS;

/// The bytes of the longest sentence: an output of this length is never too short for one.
pub const SENTENCE_MAX: usize = 55;

// As RULES has them in numbers.
const _: () = assert!(LONGEST_FILE == 36_949 && LONGEST_ANSWER == 20_482);
