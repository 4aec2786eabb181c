//! A refused step in a sentence: the model's own, written from docs/PHRASES.md.

use std::collections::BTreeSet;

use crate::model::Refusal;

/// The refusals of a step by rising number, each with its phrase.
pub const PHRASES: [(Refusal, &str); 17] = [
    (6, "the store was changed from outside"),
    (10, "there is no such step"),
    (11, "a byte that must be zero is not"),
    (12, "there is no such task"),
    (13, "there is no such register"),
    (14, "there is no such card"),
    (15, "there is no such function"),
    (20, "the task has an open request"),
    (21, "the task is not ready for this step"),
    (22, "the copies do not allow this step"),
    (23, "no requests are left"),
    (30, "the card has nothing to send"),
    (31, "the card has taken every broadcast"),
    (32, "the task has nothing on the way"),
    (33, "the card has nothing to deliver"),
    (34, "a card is too many broadcasts behind"),
    (35, "the card must deliver broadcasts first"),
];

pub fn phrase(refusal: Refusal) -> Option<&'static str> {
    let mut phrases = PHRASES.iter();
    let found = phrases.find(|(number, _)| *number == refusal);
    found.map(|(_, phrase)| *phrase)
}

/// A number in decimal, without leading zeros.
fn decimal(number: u32) -> String {
    let mut digits = Vec::new();
    let mut rest = number;
    loop {
        digits.push(char::from_digit(rest % 10, 10).expect("a digit"));
        rest /= 10;
        if rest == 0 {
            return digits.iter().rev().collect();
        }
    }
}

/// The sentence for a step, counted from 0; none for a number without a phrase.
pub fn sentence(step: u32, refusal: Refusal) -> Option<String> {
    phrase(refusal).map(|phrase| ["step ", &decimal(step), ": ", phrase].concat())
}

/// The sentence at the start of a lent output: 0 and its length. Or 36 for a number without a
/// phrase, then 5 for an output that is too short; either with 0, and the output as it was.
pub fn sentence_into(step: u32, refusal: Refusal, output: &mut [u8]) -> (u8, u32) {
    let Some(text) = sentence(step, refusal) else {
        return (36, 0);
    };
    let Some(lent) = output.get_mut(..text.len()) else {
        return (5, 0);
    };
    lent.copy_from_slice(text.as_bytes());
    (0, text.len() as u32)
}

/// Steps to try: about every power of ten, every digit at every place, and the last two.
pub fn steps() -> BTreeSet<u32> {
    let mut steps = BTreeSet::from([0, u32::MAX - 1, u32::MAX]);
    for power in (0..=9).map(|power| 10u32.pow(power)) {
        steps.extend([power - 1, power, power + 1]);
        steps.extend((2..=9).filter_map(|digit| power.checked_mul(digit)));
    }
    steps
}

#[cfg(test)]
mod tests {
    use super::*;

    /// Written out by hand.
    #[test]
    fn sentences() {
        let said = |step, refusal| sentence(step, refusal).unwrap_or_default();
        assert_eq!(said(12, 33), "step 12: the card has nothing to deliver");
        assert_eq!(said(0, 6), "step 0: the store was changed from outside");
        assert_eq!(
            said(1_000_000_000, 23),
            "step 1000000000: no requests are left"
        );
        assert_eq!(
            said(4_294_967_295, 35),
            "step 4294967295: the card must deliver broadcasts first"
        );
    }

    /// The results of a refused step are those of RULES 8.2 from 6 to 35.
    #[test]
    fn a_phrase_for_each_refusal_of_a_step() {
        let rules = [
            6, 10, 11, 12, 13, 14, 15, 20, 21, 22, 23, 30, 31, 32, 33, 34, 35,
        ];
        assert_eq!(PHRASES.map(|(number, _)| number), rules);
        for number in 0..=255 {
            let said = rules.contains(&number);
            assert_eq!(phrase(number).is_some(), said, "{number}");
            assert_eq!(sentence(7, number).is_some(), said, "{number}");
        }
    }

    #[test]
    fn letters_and_spaces_and_no_two_alike() {
        let phrases: BTreeSet<&str> = PHRASES.iter().map(|(_, phrase)| *phrase).collect();
        assert_eq!(phrases.len(), PHRASES.len());
        for phrase in phrases {
            let mut words = phrase.split(' ');
            let lower = |word: &str| word.bytes().all(|byte| byte.is_ascii_lowercase());
            assert!(
                words.all(|word| !word.is_empty() && lower(word)),
                "{phrase}"
            );
        }
    }

    #[test]
    fn the_longest_has_55_bytes() {
        let length = |(number, _)| sentence(u32::MAX, number).unwrap_or_default().len();
        assert_eq!(PHRASES.map(length).into_iter().max(), Some(55));
    }

    /// The same digits as those of the standard library.
    #[test]
    fn numbers() {
        let some = (0..1_200).chain((0..200_000).map(|n| n * 21_474));
        for number in some.chain(steps()) {
            assert_eq!(decimal(number), number.to_string());
        }
        let few = [0, 1, 9, 10, 11, 99, 100, 101, 999_999_999, 4_294_967_294];
        assert!(few.iter().all(|number| steps().contains(number)));
    }

    #[test]
    fn lent_output() {
        let text = b"step 9: there is no such task";
        for length in 0..40 {
            let mut output = vec![0xA5; length];
            let mut wanted = output.clone();
            let answer = if length < text.len() {
                (5, 0)
            } else {
                wanted[..text.len()].copy_from_slice(text);
                (0, text.len() as u32)
            };
            assert_eq!(sentence_into(9, 12, &mut output), answer);
            assert_eq!(output, wanted);
            // 36 comes before 5, and leaves the output alone too.
            let mut output = vec![0xA5; length];
            assert_eq!(sentence_into(9, 36, &mut output), (36, 0));
            assert_eq!(output, vec![0xA5; length]);
        }
    }
}
