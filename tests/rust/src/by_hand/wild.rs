//! Stores with a few wild words, or wild fields of packed words.

use crate::memory::{self, Field, Words};
use crate::random::Random;

/// Sizes, limits and numbers past them.
const WILD: [u32; 21] = [
    0,
    1,
    2,
    3,
    5,
    7,
    8,
    15,
    16,
    23,
    24,
    25,
    31,
    32,
    47,
    48,
    64,
    255,
    65_535,
    65_536,
    u32::MAX,
];

const FIELDS: [Field; 11] = [
    memory::KIND,
    memory::TASK,
    memory::REGISTER,
    memory::FUNCTION,
    memory::DESTINATIONS,
    memory::DOING,
    memory::ASKED,
    memory::ASKED_FUNCTION,
    memory::HOME,
    memory::PRIMARY,
    memory::HOLDERS,
];

/// Makes some words wild.
pub fn wild(words: &mut Words, random: &mut Random) {
    for _ in 0..random.pick(&[1, 2, 8, 200]) {
        let words: &mut [u32] = match random.percent(50) {
            true => &mut words.registers,
            false => &mut words.channel,
        };
        // The first words of the channel are the sizes and what card 0 counts.
        let most = random.pick(&[words.len() - 1, words.len() - 1, 7]);
        let word = &mut words[random.between(0, most)];
        let number = random.pick(&WILD);
        *word = match random.between(0, 5) {
            0 => random.bits() as u32,
            1 => number,
            2 | 3 => *word ^ 1 << random.between(0, 31),
            _ => {
                let field = random.pick(&FIELDS);
                field.put(*word, number.min(field.most()))
            }
        };
    }
}

#[cfg(test)]
mod tests {
    use super::*;
    use crate::by_hand;
    use crate::memory::{well_sized, written};

    /// Many are well sized, and many are not.
    #[test]
    fn of_both_sorts() {
        let mut fine = 0;
        for item in 0..4_000 {
            let mut random = Random::new(5, item);
            let mut words = written(&by_hand::state(&mut random), &mut random);
            wild(&mut words, &mut random);
            fine += well_sized(&words.registers, &words.channel) as usize;
        }
        assert!((800..3_200).contains(&fine), "{fine}");
    }
}
