//! A run file from tables (RULES 15).

use crate::run::placed;

/// What a panel has: the argument of each step is eight bytes of `arguments`.
pub struct Tables<'a> {
    pub cards: u32,
    pub homes: &'a [u8],
    pub copies: &'a [u8],
    pub primaries: &'a [u8],
    pub codes: &'a [u8],
    pub arguments: &'a [u8],
}

/// Writes the file into the output: 0 and its length; or 3 to 5, 0, and the output stays as it was.
pub fn write(tables: &Tables, output: &mut [u8]) -> (u8, u32) {
    let &Tables {
        cards,
        homes,
        copies,
        primaries,
        codes,
        arguments,
    } = tables;
    let sized = (1..=8).contains(&cards)
        && (1..=32).contains(&copies.len())
        && (1..=16).contains(&homes.len())
        && primaries.len() == copies.len()
        && codes.len() <= 4_096
        && arguments.len() == 8 * codes.len();
    if !sized {
        return (3, 0);
    }
    if !placed(cards as u8, homes, copies, primaries) {
        return (4, 0);
    }
    let length = 5 + homes.len() + 2 * copies.len() + 9 * codes.len();
    let Some(output) = output.get_mut(..length) else {
        return (5, 0);
    };
    let [low, high] = (codes.len() as u16).to_le_bytes();
    let sizes = [
        cards as u8,
        copies.len() as u8,
        homes.len() as u8,
        low,
        high,
    ];
    let mut rest = output;
    for table in [&sizes, homes, copies, primaries, codes, arguments] {
        let (first, later) = rest.split_at_mut(table.len());
        first.copy_from_slice(table);
        rest = later;
    }
    (0, length as u32)
}
