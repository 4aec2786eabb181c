//! Sentences against RULES chapter 14: all 256 numbers in every room, at places where the digits
//! change. The library's phrases are those that refusals print.

use gondzselu::{sentence, sentence_bytes, Refusal, SENTENCE_MAX};

const PLACES: [u32; 12] = [
    0,
    1,
    9,
    10,
    12,
    99,
    100,
    4095,
    65_536,
    999_999_999,
    1_000_000_000,
    u32::MAX,
];

/// What lies in a lent output before.
const FILL: u8 = 0xEE;

/// The text that a number has at a place: those of a refused step have one.
fn wanted(place: u32, number: u8) -> Option<String> {
    let refusal = Refusal::from_number(number)?;
    let step = matches!(number, 6 | 10..=15 | 20..=23 | 30..=35);
    step.then(|| format!("step {place}: {refusal}"))
}

#[test]
fn every_number_in_every_room() {
    for place in PLACES {
        for number in 0..=255 {
            let text = wanted(place, number);
            for room in 0..=SENTENCE_MAX + 2 {
                let mut output = [FILL; SENTENCE_MAX + 2];
                let given = sentence_bytes(place, number, &mut output[..room]);
                let mut after = [FILL; SENTENCE_MAX + 2];
                let asked = match &text {
                    None => (36, 0),
                    Some(text) if text.len() > room => (5, 0),
                    Some(text) => {
                        after[..text.len()].copy_from_slice(text.as_bytes());
                        (0, text.len() as u32)
                    }
                };
                assert_eq!(given, asked, "place {place}, number {number}, {room} bytes");
                assert_eq!(
                    output, after,
                    "place {place}, number {number}, {room} bytes"
                );
            }
        }
    }
}

#[test]
fn every_refusal_of_a_step_has_a_sentence() {
    let mut longest = 0;
    for place in PLACES {
        for refusal in Refusal::ALL {
            let words = sentence(place, refusal);
            assert_eq!(words.as_deref(), wanted(place, refusal.number()).as_deref());
            longest = longest.max(words.map_or(0, |words| words.len()));
        }
        assert_eq!(sentence(place, Refusal::Unknown(99)), None);
    }
    assert_eq!(longest, SENTENCE_MAX);
    // RULES 4.7: place 12 of K9.
    let words = sentence(12, Refusal::InboxEmpty).map(|words| words.to_string());
    assert_eq!(
        words.as_deref(),
        Some("step 12: the card has nothing to deliver")
    );
}
