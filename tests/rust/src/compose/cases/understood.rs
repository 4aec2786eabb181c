//! Texts with a line that is not understood.

use super::{more, padded, text, with, PLAIN};

/// The plain text with other words for this line, which are not understood.
type Words = (&'static str, usize, &'static str);

/// Sizes, tasks, registers and counts.
const PLACED: [Words; 31] = [
    ("upper_case", 1, "Cards 2"),
    ("no_number", 1, "cards"),
    ("cards_4294967296", 1, "cards 4294967296"),
    // 2 in 32 and in 64 bits.
    ("cards_past_32_bits", 1, "cards 4294967298"),
    ("cards_past_64_bits", 1, "cards 18446744073709551618"),
    ("half_of_the_sizes", 1, "cards 2 registers 2"),
    (
        "sizes_in_another_order",
        1,
        "cards 2 tasks 2 registers 2 steps 2",
    ),
    (
        "told_4294967296",
        1,
        "cards 2 registers 2 tasks 2 steps 4294967296",
    ),
    ("word_after_cards", 1, "cards 2 two"),
    (
        "word_after_sizes",
        1,
        "cards 2 registers 2 tasks 2 steps 2 taken",
    ),
    ("task_256", 2, "task 256 home card 0"),
    ("home_256", 2, "task 0 home card 256"),
    ("task_without_card", 2, "task 0 home 0"),
    ("word_after_task", 2, "task 0 home card 0 0"),
    ("number_before_task", 2, "0 task 0 home card 0"),
    (
        "register_256",
        4,
        "register 256 primary card 0 copies on 0 1",
    ),
    (
        "primary_256",
        4,
        "register 0 primary card 256 copies on 0 1",
    ),
    ("holder_8", 4, "register 0 primary card 0 copies on 0 1 8"),
    ("holder_256", 4, "register 0 primary card 0 copies on 256 1"),
    (
        "holder_word",
        4,
        "register 0 primary card 0 copies on 0 and 1",
    ),
    (
        "holders_glued",
        4,
        "register 0 primary card 0 copies on 0;1",
    ),
    ("register_without_copies", 4, "register 0 primary card 0"),
    ("register_without_primary", 4, "register 0 copies on 0 1"),
    ("counts_half", 8, "taken 1"),
    ("counts_without_numbers", 8, "taken refused"),
    ("counts_in_words", 8, "taken one refused one"),
    ("counts_4294967296", 8, "taken 4294967296 refused 0"),
    ("word_after_counts", 8, "taken 1 refused 1 steps"),
    ("counts_held", 8, "held 1 refused 1"),
    ("counts_with_held", 8, "taken 1 held 1 refused 0"),
    (
        "refused_file",
        1,
        "refused 4: no copy, a copy or home on an absent card, or a primary without a copy",
    ),
];

/// Steps, the first of the text.
const STEPS: [Words; 47] = [
    ("unknown_step", 6, "jump card 0"),
    ("step_glued", 6, "dispatchcard 0"),
    ("step_cut", 6, "dispatch card"),
    ("step_upper_case", 6, "dispatch Card 0"),
    ("step_word_longer", 6, "dispatched card 0"),
    ("sign", 6, "dispatch card +1"),
    ("minus", 6, "dispatch card -1"),
    ("point", 6, "dispatch card 1.0"),
    ("hex_number", 6, "dispatch card 0x1"),
    ("card_256", 6, "dispatch card 256"),
    ("task_of_step_256", 6, "report task 256"),
    ("task_4294967296", 6, "report task 4294967296"),
    (
        "register_of_step_256",
        6,
        "request read task 0 register 256",
    ),
    ("chosen_256", 6, "send read task 0 to card 256"),
    ("chosen_missing", 6, "send read task 0"),
    ("chosen_for_update", 6, "send update task 0 to card 1"),
    ("card_for_task", 6, "report card 0"),
    ("task_for_card", 6, "dispatch task 0"),
    (
        "operand_4294967296",
        6,
        "request update task 0 register 0 set 4294967296",
    ),
    ("operand_missing", 6, "request update task 0 register 0 set"),
    (
        "operand_answered",
        6,
        "request update task 0 register 0 set taken",
    ),
    ("function_missing", 6, "request update task 0 register 0 5"),
    (
        "function_unknown",
        6,
        "request update task 0 register 0 less 5",
    ),
    ("function_number", 6, "request update task 0 register 0 1 5"),
    ("function_add", 6, "request update task 0 register 0 add 5"),
    (
        "function_cut",
        6,
        "request update task 0 register 0 add stays at the 5",
    ),
    (
        "function_mixed",
        6,
        "request update task 0 register 0 add comes top 5",
    ),
    (
        "function_of_read",
        6,
        "request read task 0 register 0 set 5",
    ),
    ("junk_after_step", 6, "dispatch card 0 now"),
    ("number_after_step", 6, "dispatch card 0 0"),
    ("takenx", 6, "dispatch card 0 takenx"),
    ("taken_upper_case", 6, "dispatch card 0 Taken"),
    ("heldx", 6, "take single task 0 heldx"),
    ("held_cut", 6, "take single task 0 hel"),
    ("held_before_step", 6, "held take single task 0"),
    ("refused_glued", 6, "dispatch card 0 refused:33"),
    ("number_alone", 6, "0"),
    ("number_of_answer", 6, "0 taken"),
    ("two_numbers", 6, "0 0 dispatch card 0"),
    ("number_glued", 6, "0dispatch card 0"),
    // 0 in 32 bits.
    ("number_4294967296", 6, "4294967296 dispatch card 0"),
    ("hex_one_digit", 6, "bytes 0b 0 00 00 00 00 00 00 00"),
    ("hex_three_digits", 6, "bytes 0b 00 000 00 00 00 00 00 00"),
    ("hex_other_digit", 6, "bytes 0b 00 00 0g 00 00 00 00 00"),
    ("hex_sign", 6, "bytes +b 00 00 00 00 00 00 00 00"),
    ("bytes_eight", 6, "bytes 0b 00 00 00 00 00 00 00 taken"),
    ("bytes_ten", 6, "bytes 0b 00 00 00 00 00 00 00 00 00"),
];

/// Bytes that are no blanks.
const OTHERS: [(&str, &[u8]); 4] = [
    ("zero_byte", b"dispatch card 0\0"),
    ("form_feed", b"dispatch\x0Ccard 0"),
    ("no_break_space", b"dispatch card\xA0\x30"),
    ("full_width_digit", "dispatch card \u{FF10}".as_bytes()),
];

/// Lines of more than 255 bytes, whatever they say.
fn long() -> Vec<(&'static str, usize, String)> {
    let answer = "x".repeat(236);
    vec![
        ("line_256", 6, padded("dispatch card 0", 256)),
        ("line_of_sizes_256", 1, padded("cards 2", 256)),
        ("line_of_blanks_256", 6, padded("", 256)),
        ("answer_256", 6, format!("report task 2 taken {answer}")),
        ("line_511", 6, padded("dispatch card 0", 511)),
    ]
}

/// A name, a text, and its line that is not understood.
pub fn cases() -> Vec<(&'static str, Vec<u8>, usize)> {
    let words = PLACED.into_iter().chain(STEPS);
    let words = words.map(|(name, line, words)| (name, line, words.to_string()));
    let changed = words.chain(long());
    let changed = changed.map(|(name, line, words)| (name, with(line, &words), line));
    let other = |(name, bytes)| {
        let text = [&text(PLAIN[..5].to_vec())[..], bytes, b"\n"].concat();
        (name, text, 6)
    };
    // Without a newline, and behind the counts.
    let last = [&text(PLAIN)[..], padded("dispatch card 0", 256).as_bytes()].concat();
    let after = more(8, &["taken 1 refused 1", "", "thank you"]);
    let others = OTHERS.map(other).into_iter();
    let others = others.chain([("last_line_256", last, 8), ("junk_after_counts", after, 10)]);
    changed.chain(others).collect()
}
