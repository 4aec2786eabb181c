//! Logs from a seed (RULES 16.1): short and long ones, and lists that are refused.

use super::operand;
use crate::model::totals::Log;
use crate::random::Random;

/// Lengths that must come: as many as a run can have requests (RULES 7.8), and far more.
pub const LONG: [usize; 2] = [65_535, 200_000];

/// Operands where sums turn.
pub const CORNERS: [u32; 4] = [0, 1, 1 << 31, u32::MAX];

/// Mostly a good one; else lists of unequal length, a card above 7, or both.
pub fn log(random: &mut Random) -> Log {
    let length = length(random);
    let mut log = Log {
        cards: cards(random, length),
        operands: operands(random, length),
    };
    if random.percent(25) {
        above(random, &mut log.cards);
    }
    if random.percent(20) {
        let length = another(random, length);
        match random.percent(50) {
            true => log.cards.resize(length, random.byte(0, 7)),
            false => log.operands.resize(length, operand(random)),
        }
    }
    log
}

fn length(random: &mut Random) -> usize {
    match random.between(0, 99) {
        0..=4 => 0,
        5..=9 => 1,
        10..=69 => random.between(2, 40),
        70..=94 => random.between(41, 1_000),
        95..=96 => random.between(1_001, LONG[0]),
        97..=98 => LONG[0],
        _ => LONG[1],
    }
}

/// Of any cards, of all, or of one alone.
fn cards(random: &mut Random, length: usize) -> Vec<u8> {
    let set = match random.between(0, 2) {
        0 => random.byte(1, 255),
        1 => 255,
        _ => 1 << random.byte(0, 7),
    };
    let members: Vec<u8> = (0..8).filter(|card| set >> card & 1 == 1).collect();
    (0..length).map(|_| random.pick(&members)).collect()
}

fn operands(random: &mut Random, length: usize) -> Vec<u32> {
    let one: fn(&mut Random) -> u32 = match random.between(0, 3) {
        0 => |random| random.pick(&CORNERS),
        1 => |random| random.between(0, 20) as u32,
        2 => |random| random.bits() as u32,
        _ => operand,
    };
    (0..length).map(|_| one(random)).collect()
}

/// Puts a card above 7 at an end or anywhere, if there is a place.
fn above(random: &mut Random, cards: &mut [u8]) {
    let any = random.byte(8, 255);
    let card = random.pick(&[8, 255, any]);
    if let Some(last) = cards.len().checked_sub(1) {
        let place = random.between(0, last);
        cards[random.pick(&[0, last, place])] = card;
    }
}

/// Another length: near, none, or with the same low bytes.
fn another(random: &mut Random, length: usize) -> usize {
    let lengths = [0, length + 1, length + 256, length + 65_536];
    let lengths = lengths.into_iter().chain(length.checked_sub(1));
    let lengths: Vec<usize> = lengths.filter(|&other| other != length).collect();
    random.pick(&lengths)
}
