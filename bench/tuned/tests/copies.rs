//! A register's copies from either layout, on any words: as RULES 11.8 and 11.9 say.

use gondzselu_model::by_hand::any;
use gondzselu_model::by_hand::wild::wild;
use gondzselu_model::memory::written;
use gondzselu_model::random::Random;

use super::store_of;
use crate::word::HOLDERS;
use crate::{Rows, Store};

fn by_the_rules(store: &Store, register: u8) -> [u32; 8] {
    let mut copies = [0; 8];
    let at = usize::from(register);
    for (card, copy) in copies.iter_mut().enumerate() {
        let there = card < store.cards as usize && at < store.registers.min(32) as usize;
        if there && (store.register[at] >> HOLDERS >> card) % 2 == 1 {
            *copy = store.copies[card][at];
        }
    }
    copies
}

#[test]
fn as_the_rules() {
    let [mut absent, mut unheld, mut held] = [0; 3];
    for item in 0..3_000 {
        let mut random = Random::new(7, item);
        let mut words = written(&any(&mut random), &mut random);
        if random.percent(50) {
            wild(&mut words, &mut random);
        }
        let store = store_of(&words);
        let rows = Rows::of(&store);
        for register in 0..=u8::MAX {
            let copies = by_the_rules(&store, register);
            assert_eq!(store.copies(register), copies, "item {item}: {register}");
            assert_eq!(rows.copies(register), copies, "item {item}: {register}");
            absent += (copies == [0; 8]) as usize;
            unheld += (copies != [0; 8] && copies.contains(&0)) as usize;
            held += !copies.contains(&0) as usize;
        }
    }
    assert!(absent > 100_000 && unheld > 1_000 && held > 100);
}
