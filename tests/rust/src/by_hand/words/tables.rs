//! Rows of a task and of a register.

use super::last;
use super::row::{below, sets, Rows, MOST};
use crate::memory;

pub fn tables(rows: &mut Rows) {
    let [cards, tasks, present] = rows.sizes();
    task(rows, memory::task(last(9, tasks)), cards, present);
    let register = ("register", false, memory::register(present as usize - 1));
    rows.field(
        register,
        &[],
        memory::PRIMARY,
        below(cards, memory::PRIMARY),
    );
    let holders = sets(cards, memory::HOLDERS, [true; 3]);
    rows.field(register, &[], memory::HOLDERS, holders);
}

/// The two words of a task.
fn task(rows: &mut Rows, at: usize, cards: u32, registers: u32) {
    use memory::{ASKED, ASKED_FUNCTION, DOING, HOME};
    let place = ("task", false, at);
    let asking = [(ASKED, registers - 1), (ASKED_FUNCTION, 5)];
    let kinds = (0..=7).map(|kind| (kind, kind <= 5));
    rows.field(place, &asking, DOING, kinds);
    rows.field(place, &[], HOME, below(cards, HOME));
    rows.field(place, &[], HOME, [(256, false), (65_536, false)]);
    for kind in 0..=5 {
        let asks = kind == 1 || kind == 2;
        let kinds = [(DOING, kind), (ASKED_FUNCTION, 1)];
        let asked = below(registers, ASKED);
        let asked = asked
            .into_iter()
            .map(|(number, fine)| (number, fine || !asks));
        rows.field(place, &kinds, ASKED, asked);
        let kinds = [(DOING, kind), (ASKED, 0)];
        let functions = (0..=7).map(|f| (f, kind != 2 || (1..=5).contains(&f)));
        rows.field(place, &kinds, ASKED_FUNCTION, functions);
    }
    rows.word("value of a task", false, at + 1, &[(0, true), (MOST, true)]);
}
