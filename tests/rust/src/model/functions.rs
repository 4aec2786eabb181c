//! The functions of an update (RULES chapter 2).

use std::ops::RangeInclusive;

/// The functions that there are (RULES 2.6).
pub const FUNCTIONS: RangeInclusive<u8> = 1..=5;

/// RULES 2.1 to 2.5: the value v of a copy after an update with operand w.
pub fn apply(function: u8, v: u32, w: u32) -> u32 {
    let sum = v as u64 + w as u64;
    match function {
        1 => w,
        2 => sum.min(u32::MAX as u64) as u32,
        3 => v.max(w),
        4 => v | w,
        5 => (sum % (1 << 32)) as u32,
        _ => unreachable!("function {function}"),
    }
}

#[cfg(test)]
mod tests {
    use super::*;

    /// Every function at 0, 1, 2^31 and 2^32 - 1, worked out by hand: a row for each value, in it a
    /// number for each operand.
    #[test]
    fn functions() {
        const HALF: u32 = 0x8000_0000;
        const TOP: u32 = 0xFFFF_FFFF;
        let corners = [0, 1, HALF, TOP];
        let rows = [
            [corners; 4],
            [
                [0, 1, HALF, TOP],
                [1, 2, HALF + 1, TOP],
                [HALF, HALF + 1, TOP, TOP],
                [TOP; 4],
            ],
            [
                [0, 1, HALF, TOP],
                [1, 1, HALF, TOP],
                [HALF, HALF, HALF, TOP],
                [TOP; 4],
            ],
            [
                [0, 1, HALF, TOP],
                [1, 1, HALF + 1, TOP],
                [HALF, HALF + 1, HALF, TOP],
                [TOP; 4],
            ],
            [
                [0, 1, HALF, TOP],
                [1, 2, HALF + 1, 0],
                [HALF, HALF + 1, 0, HALF - 1],
                [TOP, 0, HALF - 1, TOP - 1],
            ],
        ];
        for (function, rows) in FUNCTIONS.zip(rows) {
            let made = corners.map(|v| corners.map(|w| apply(function, v, w)));
            assert_eq!(made, rows, "function {function}");
        }
        assert_eq!(apply(2, TOP - 1, 1), TOP);
    }
}
