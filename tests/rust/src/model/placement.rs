//! Sizes and placement: refusals 3 and 4.

use super::{has, Refusal};

/// Where the copies of one register lie.
#[derive(Clone, Copy, Debug, PartialEq, Eq)]
pub struct Place {
    /// A set of cards (RULES 1.5).
    pub holders: u8,
    pub primary: u8,
}

#[derive(Clone, Debug, PartialEq, Eq)]
pub struct Placement {
    pub cards: u8,
    /// The home card of each task.
    pub home: Vec<u8>,
    pub registers: Vec<Place>,
}

/// RULES 1.3.
pub fn sizes_in_range(cards: usize, registers: usize, tasks: usize, steps: usize) -> bool {
    (1..=8).contains(&cards)
        && (1..=32).contains(&registers)
        && (1..=16).contains(&tasks)
        && steps <= 4_096
}

impl Placement {
    /// With the (holders, primary) of each register.
    pub fn new(cards: u8, home: &[u8], registers: &[(u8, u8)]) -> Placement {
        let place = |&(holders, primary): &(u8, u8)| Place { holders, primary };
        Placement {
            cards,
            home: home.to_vec(),
            registers: registers.iter().map(place).collect(),
        }
    }

    pub fn present(&self, card: u8) -> bool {
        card < self.cards
    }

    /// 3, then 4 (RULES 8.2, 8.4).
    pub fn judge(&self) -> Result<(), Refusal> {
        let (registers, tasks) = (self.registers.len(), self.home.len());
        if !sizes_in_range(self.cards as usize, registers, tasks, 0) {
            return Err(3);
        }
        let homes = self.home.iter().all(|&home| self.present(home));
        let places = self.registers.iter().all(|place| {
            place.holders != 0
                && (place.holders as u32) < 1 << self.cards
                && self.present(place.primary)
                && has(place.holders, place.primary as usize)
        });
        if homes && places {
            Ok(())
        } else {
            Err(4)
        }
    }
}

#[cfg(test)]
mod tests {
    use super::*;

    fn judged(cards: u8, home: &[u8], registers: &[(u8, u8)]) -> u8 {
        Placement::new(cards, home, registers)
            .judge()
            .err()
            .unwrap_or(0)
    }

    #[test]
    fn sizes() {
        assert_eq!(judged(0, &[0], &[(1, 0)]), 3);
        assert_eq!(judged(1, &[0], &[(1, 0)]), 0);
        assert_eq!(judged(8, &[0], &[(1, 0)]), 0);
        assert_eq!(judged(9, &[0], &[(1, 0)]), 3);
        assert_eq!(judged(1, &[], &[(1, 0)]), 3);
        assert_eq!(judged(1, &[0; 16], &[(1, 0)]), 0);
        assert_eq!(judged(1, &[0; 17], &[(1, 0)]), 3);
        assert_eq!(judged(1, &[0], &[]), 3);
        assert_eq!(judged(1, &[0], &[(1, 0); 32]), 0);
        assert_eq!(judged(1, &[0], &[(1, 0); 33]), 3);
        assert_eq!(judged(9, &[9], &[(0, 0)]), 3, "3 before 4");
    }

    #[test]
    fn places() {
        assert_eq!(judged(2, &[0], &[(0, 0)]), 4, "no copy");
        assert_eq!(judged(2, &[0], &[(5, 0)]), 4, "a copy on an absent card");
        assert_eq!(judged(2, &[2], &[(1, 0)]), 4, "a home on an absent card");
        assert_eq!(judged(2, &[0], &[(2, 0)]), 4, "a primary without a copy");
        assert_eq!(judged(2, &[0], &[(3, 2)]), 4, "a primary that is absent");
        assert_eq!(judged(8, &[7], &[(255, 200)]), 4, "a primary far away");
        assert_eq!(judged(8, &[7], &[(255, 7)]), 0);
    }
}
