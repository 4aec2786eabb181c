//! What a panel reads of the copies in the words of any store, well sized or not (RULES 11.6 to 11.9).

use super::{copy, register};
use super::{CARDS, CHANNEL_WORDS, HOLDERS, REGISTERS, REGISTERS_WORDS};

/// The value of a card's copy of a register; 0 where one of them is absent. A size above its limit
/// counts as the limit.
pub fn read_copy(
    words: &[u32; REGISTERS_WORDS],
    c: &[u32; CHANNEL_WORDS],
    card: u32,
    number: u32,
) -> u32 {
    match card < c[CARDS].min(8) && number < c[REGISTERS].min(32) {
        true => words[copy(card as usize, number as usize)],
        false => 0,
    }
}

/// The same of each card in the register's set of holders, and 0 of any other.
pub fn read_copies(
    words: &[u32; REGISTERS_WORDS],
    c: &[u32; CHANNEL_WORDS],
    number: u32,
) -> [u32; 8] {
    // An absent register may have no word of its own.
    let word = words[register(number.min(31) as usize)];
    let holds = |card: u32| HOLDERS.of(word) >> card & 1 == 1;
    [0, 1, 2, 3, 4, 5, 6, 7].map(|card| match holds(card) {
        true => read_copy(words, c, card, number),
        false => 0,
    })
}

#[cfg(test)]
mod tests {
    use super::*;
    use crate::by_hand;
    use crate::memory::{written, Words};
    use crate::random::Random;

    /// Each word has its own number in it: 3 cards, 2 registers, on cards 0 and 2 and on 1.
    fn numbered() -> Words {
        let mut words = Words {
            registers: std::array::from_fn(|at| at as u32),
            channel: [0; CHANNEL_WORDS],
        };
        words.registers[33..35].copy_from_slice(&[8 * 0b101, 1 + 8 * 0b010]);
        words.channel[..3].copy_from_slice(&[3, 1, 2]);
        words
    }

    /// What is read of a register, and of card after card alone.
    fn read(words: &Words, number: u32) -> ([u32; 8], [u32; 9]) {
        let Words { registers, channel } = words;
        let alone = |card| read_copy(registers, channel, card, number);
        (
            read_copies(registers, channel, number),
            [0, 1, 2, 3, 4, 5, 6, 7, 8].map(alone),
        )
    }

    /// A card that holds none is 0 at once, and alone has what lies there.
    #[test]
    fn holders_and_others() {
        let words = numbered();
        let absent = ([0; 8], [0; 9]);
        let first = ([65, 0, 67, 0, 0, 0, 0, 0], [65, 66, 67, 0, 0, 0, 0, 0, 0]);
        let second = ([0, 74, 0, 0, 0, 0, 0, 0], [73, 74, 75, 0, 0, 0, 0, 0, 0]);
        assert_eq!([read(&words, 0), read(&words, 1)], [first, second]);
        for number in [2, 3, 31, 32, 33, 1 << 29, u32::MAX] {
            assert_eq!(read(&words, number), absent, "register {number}");
        }
    }

    /// Holders that are absent, and sets that no byte can have.
    #[test]
    fn holders_that_cannot_be() {
        let mut words = numbered();
        for (holders, wanted) in [
            (0b1111_1000, [0; 8]),
            (255, [65, 66, 67, 0, 0, 0, 0, 0]),
            (256, [0; 8]),
            (256 + 2, [0, 66, 0, 0, 0, 0, 0, 0]),
            (HOLDERS.most(), [65, 66, 67, 0, 0, 0, 0, 0]),
        ] {
            words.registers[33] = 8 * holders + 7;
            assert_eq!(read(&words, 0).0, wanted, "holders {holders}");
        }
    }

    /// RULES 11.9: a size above its limit counts as the limit. One of 0 leaves nothing present.
    #[test]
    fn sizes_that_cannot_be() {
        let mut words = numbered();
        words.registers[64] = 8 * 0b1000_0001;
        for (cards, registers, wanted) in [
            (8, 32, [313, 0, 0, 0, 0, 0, 0, 320]),
            (9, 33, [313, 0, 0, 0, 0, 0, 0, 320]),
            (u32::MAX, u32::MAX, [313, 0, 0, 0, 0, 0, 0, 320]),
            (7, u32::MAX, [313, 0, 0, 0, 0, 0, 0, 0]),
            (u32::MAX, 31, [0; 8]),
            (0, 32, [0; 8]),
            (8, 0, [0; 8]),
        ] {
            words.channel[..3].copy_from_slice(&[cards, 1, registers]);
            assert_eq!(read(&words, 31).0, wanted, "{cards} and {registers}");
            for number in [32, 33, u32::MAX - 1, u32::MAX] {
                assert_eq!(read(&words, number).0, [0; 8], "register {number}");
            }
        }
    }

    /// Of a state of the model the words say what the model says, well sized or not.
    #[test]
    fn as_the_model_has_it() {
        for item in 0..2_000 {
            let mut random = Random::new(3, item);
            let state = by_hand::state(&mut random);
            let words = written(&state, &mut random);
            for number in 0..=33 {
                let wanted = state.copies_of(number as usize);
                assert_eq!(read(&words, number).0, wanted, "item {item}");
            }
        }
    }
}
