//! The copies of a register on all cards at once (RULES 11.7 to 11.9): in a run, before one, and on
//! words that no run leaves.

use gondzselu::{
    Function, Placement, Step, Store, CHANNEL_WORDS, MAX_CARDS, MAX_REGISTERS, REGISTERS_WORDS,
};

/// Register 0 on cards 0, 1 and 3, register 1 on card 2 alone, register 2 on all. Task t lives on
/// card t.
const PLACE: Placement<'_> = Placement {
    cards: 4,
    homes: &[0, 1, 2, 3],
    copies: &[0b1011, 0b0100, 0b1111],
    primaries: &[0, 2, 3],
};

/// Word by word what RULES 11.8 says, by a set of holders and a number of cards.
fn expected(store: &Store, register: u8, holders: u32, cards: u32) -> [u32; MAX_CARDS] {
    std::array::from_fn(|card| {
        let there = (card as u32) < cards && holders >> card & 1 == 1;
        let word = store.words().0[65 + 8 * usize::from(register) + card];
        assert!(!there || store.copy(card as u8, register) == word);
        if there {
            word
        } else {
            0
        }
    })
}

/// All registers there are have these copies; and those that are not, none.
fn agrees(store: &Store) {
    for register in 0..=u8::MAX {
        let copies = match PLACE.copies.get(usize::from(register)) {
            Some(&holders) => expected(store, register, holders.into(), 4),
            None => [0; MAX_CARDS],
        };
        assert_eq!(store.copies(register), copies, "register {register}");
    }
}

fn play(store: &mut Store, steps: &[Step]) {
    for &step in steps {
        store
            .step(step)
            .unwrap_or_else(|why| panic!("{step}: {why}"));
    }
}

fn set(task: u8, register: u8, operand: u32) -> Step {
    Step::RequestUpdate {
        task,
        register,
        function: Function::Set,
        operand,
    }
}

/// Card by card an update reaches the holders, and no other card.
#[test]
fn in_a_run() {
    let mut store = Store::start(PLACE).expect("a placement");
    agrees(&store);
    assert_eq!(store.copies(0), [0; 8]);
    let performed = [set(2, 1, 5), Step::Perform { task: 2 }];
    play(&mut store, &performed);
    assert_eq!(store.copies(1), [0, 0, 5, 0, 0, 0, 0, 0]);
    let sent = [Step::SendUpdate { task: 1 }, Step::Dispatch { card: 1 }];
    play(&mut store, &[set(1, 0, 7)]);
    play(&mut store, &sent);
    let mut copies = [0; 8];
    for card in [3, 1, 0] {
        let next = [Step::TakeBroadcast { card }, Step::Deliver { card }];
        play(&mut store, &next);
        copies[usize::from(card)] = 7;
        assert_eq!(store.copies(0), copies);
        agrees(&store);
    }
    play(&mut store, &[Step::TakeBroadcast { card: 2 }]);
    assert_eq!(store.copies(0), [7, 7, 0, 7, 0, 0, 0, 0]);
    let before = store.clone();
    assert_eq!([1, 2, 3].map(|x| store.copies(x)[2]), [5, 0, 0]);
    assert!(store == before);
}

/// Something is in every word for a copy: what is in that of a card without one is not given.
#[test]
fn a_word_without_a_copy() {
    let mut store = Store::start(PLACE).expect("a placement");
    let words = &mut store.words_mut().0[65..][..MAX_CARDS * MAX_REGISTERS];
    for (number, word) in (1..).zip(words) {
        *word = number;
    }
    agrees(&store);
    assert_eq!(store.copies(0), [1, 2, 0, 4, 0, 0, 0, 0]);
    assert_eq!(store.copies(1), [0, 0, 11, 0, 0, 0, 0, 0]);
    assert_eq!(store.copies(2), [17, 18, 19, 20, 0, 0, 0, 0]);
}

/// Sizes and holders of any words: a size above its limit counts as the limit (RULES 11.9).
#[test]
fn on_any_words() {
    assert_eq!(Store::unstarted().copies(0), [0; 8]);
    let registers: [u32; REGISTERS_WORDS] =
        std::array::from_fn(|at| (at as u32 + 1).wrapping_mul(2_654_435_769));
    for [cards, sized] in [[0, 32], [1, 1], [5, 31], [8, 32], [9, 33], [u32::MAX; 2]] {
        let mut channel = [0; CHANNEL_WORDS];
        (channel[0], channel[2]) = (cards, sized);
        let store = Store::from_words(&registers, &channel);
        for register in 0..=u8::MAX {
            let copies = if u32::from(register) < sized.min(MAX_REGISTERS as u32) {
                let holders = registers[33 + usize::from(register)] / 8;
                expected(&store, register, holders, cards)
            } else {
                [0; MAX_CARDS]
            };
            assert_eq!(store.copies(register), copies, "{sized}: {register}");
        }
    }
}
