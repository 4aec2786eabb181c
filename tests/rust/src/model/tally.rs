//! A tally of steps taken and steps refused (RULES 9).

use super::results::taken;

#[derive(Clone, Copy, Debug, Default, PartialEq, Eq)]
pub struct Tally {
    pub taken: u32,
    pub refused: u32,
}

impl Tally {
    /// Counts one step's result (RULES 9.2, 9.3).
    pub fn count(&mut self, result: u8) {
        let count = if taken(result) {
            &mut self.taken
        } else {
            &mut self.refused
        };
        *count = count.saturating_add(1);
    }
}

#[cfg(test)]
mod tests {
    use super::*;

    #[test]
    fn stays_at_its_largest_value() {
        let mut tally = Tally {
            taken: u32::MAX - 1,
            refused: u32::MAX,
        };
        for result in [0, 0, 6, 34] {
            tally.count(result);
        }
        assert_eq!((tally.taken, tally.refused), (u32::MAX, u32::MAX));
        tally.count(100);
        assert_eq!((tally.taken, tally.refused), (u32::MAX, u32::MAX));
    }

    /// A held message counts as taken (RULES 9.3); 99 and 101 are no results, and would not.
    #[test]
    fn each_step_counts_once() {
        let mut tally = Tally::default();
        let counts = [
            (100, (1, 0)),
            (0, (2, 0)),
            (32, (2, 1)),
            (100, (3, 1)),
            (6, (3, 2)),
            (99, (3, 3)),
            (101, (3, 4)),
        ];
        for (result, wanted) in counts {
            tally.count(result);
            assert_eq!((tally.taken, tally.refused), wanted, "{result}");
        }
    }
}
