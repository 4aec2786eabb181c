//! Each reader with one thing wrong is noticed, where the stores let it be.

use super::*;
use crate::memory::{copy, CARDS, HOLDERS};

/// What a reader takes for the sizes, the number, the holders and the places of the copies.
struct Takes {
    cards: u32,
    registers: u32,
    number: u32,
    holders: u32,
    place: fn(usize, usize) -> usize,
    /// What it gives where it gives no copy.
    none: u32,
}

fn right((words, c): Memories, number: u32) -> Takes {
    Takes {
        cards: c[CARDS].min(8),
        registers: c[REGISTERS].min(32),
        number,
        holders: HOLDERS.of(words[register(number.min(31) as usize)]),
        place: copy,
        none: 0,
    }
}

/// By what is right but for a change.
fn by(memories: Memories, number: u32, change: impl FnOnce(&mut Takes)) -> Option<[u32; 8]> {
    let mut takes = right(memories, number);
    change(&mut takes);
    let given = |card: u32| {
        let held = card < takes.cards && takes.holders >> card & 1 == 1;
        match held && takes.number < takes.registers {
            true => memories.0[(takes.place)(card as usize, takes.number as usize)],
            false => takes.none,
        }
    };
    Some([0, 1, 2, 3, 4, 5, 6, 7].map(given))
}

/// What lies where nothing is written.
const BEFORE: u32 = 0xA5A5_A5A5;

/// A reader with something wrong, and where that is noticed.
type Wrong<T> = (&'static str, &'static [Of], T);

const WRONG: [Wrong<Copies>; 20] = [
    ("card after card", &ALL, |m, n| {
        by(m, n, |t| t.place = |card, number| 65 + 32 * card + number)
    }),
    ("of the next card", &ALL, |m, n| {
        by(m, n, |t| {
            t.place = |card, number| copy((card + 1) % 8, number)
        })
    }),
    ("of the next register", &ALL, |m, n| {
        by(m, n, |t| {
            t.place = |card, number| copy(card, (number + 1) % 32)
        })
    }),
    ("of any card", &BY_HAND, |m, n| {
        by(m, n, |t| t.holders = 255)
    }),
    ("holders of another register", &ALL, |m, n| {
        by(m, n, |t| t.holders = right(m, n.min(31) ^ 1).holders)
    }),
    ("holders with the primary", &ALL, |m, n| {
        by(m, n, |t| t.holders = m.0[register(n.min(31) as usize)])
    }),
    ("holders from the last", &ALL, |m, n| {
        by(m, n, |t| t.holders = t.holders.reverse_bits() >> 24)
    }),
    ("nobody where holders are past card 7", &BY_WORDS, |m, n| {
        by(m, n, |t| t.holders *= u32::from(t.holders < 256))
    }),
    ("of absent cards", &BY_HAND, |m, n| {
        by(m, n, |t| t.cards = 8)
    }),
    ("of absent registers", &BY_HAND, |m, n| {
        by(m, n, |t| t.registers = 32)
    }),
    ("none where 9 cards are said", &BY_WORDS, |m, n| {
        by(m, n, |t| t.cards *= u32::from(m.1[CARDS] < 9))
    }),
    ("none where 33 registers are said", &BY_WORDS, |m, n| {
        by(m, n, |t| t.registers *= u32::from(m.1[REGISTERS] < 33))
    }),
    ("cards cut to three bits", &ALL, |m, n| {
        by(m, n, |t| t.cards %= 8)
    }),
    ("registers cut to five bits", &ALL, |m, n| {
        by(m, n, |t| t.registers %= 32)
    }),
    ("without card 7", &ALL, |m, n| {
        by(m, n, |t| t.holders &= 127)
    }),
    ("the number cut to five bits", &ALL, |m, n| {
        by(m, n % 32, |_| ())
    }),
    ("the number cut to 29 bits", &ALL, |m, n| {
        by(m, n % (1 << 29), |_| ())
    }),
    ("not written where there is no copy", &ALL, |m, n| {
        by(m, n, |t| t.none = BEFORE)
    }),
    ("not written of an absent register", &ALL, |m, n| {
        by(m, n, |t| t.none = BEFORE * u32::from(n >= t.registers))
    }),
    ("a word beside them", &ALL, |_, _| None),
];

/// The reader of one copy has what lies there in a state made by hand, also of a card that holds none.
const WRONG_ALONE: [Wrong<Copy>; 4] = [
    ("card after card", &ALL, |m, card, number| {
        match (right(m, number), card as usize, number as usize) {
            (t, i, x) if card < t.cards && number < t.registers => m.0[65 + 32 * i + x],
            _ => 0,
        }
    }),
    ("of holders alone", &BY_HAND, |m, card, number| {
        let copies = COPIES(m, number).unwrap_or_default();
        copies.get(card as usize).copied().unwrap_or(0)
    }),
    (
        "none where 9 cards are said",
        &BY_WORDS,
        |m, card, number| COPY(m, card, number) * u32::from(m.1[CARDS] < 9),
    ),
    ("the card cut to three bits", &ALL, |m, card, number| {
        COPY(m, card % 8, number)
    }),
];

#[test]
fn each_wrong_reader_is_noticed() {
    for of in ALL {
        assert!(run(of, COPY, |m, n| by(m, n, |_| ())).is_ok());
        for (name, noticed, wrong) in WRONG {
            let found = run(of, COPY, wrong).is_err();
            assert_eq!(found, noticed.contains(&of), "{name}, {of:?}");
        }
        for (name, noticed, wrong) in WRONG_ALONE {
            let found = run(of, wrong, COPIES).is_err();
            assert_eq!(found, noticed.contains(&of), "one copy, {name}, {of:?}");
        }
    }
}
