//! The two readings of a log of updates by function 5 (RULES 16.1 to 16.5), written apart: one comes
//! round at every operand, the other adds up what each card has and comes round then.

use super::Refusal;

/// For each update the home card of its task, and its operand (RULES 16.1); or any two lists.
#[derive(Clone, Debug, Default, PartialEq, Eq)]
pub struct Log {
    pub cards: Vec<u8>,
    pub operands: Vec<u32>,
}

/// 3, then 14 (RULES 16.4).
fn judge(cards: &[u8], operands: &[u32]) -> Result<(), Refusal> {
    if cards.len() != operands.len() {
        return Err(3);
    }
    match cards.iter().any(|&card| card > 7) {
        true => Err(14),
        false => Ok(()),
    }
}

/// The plain reading (RULES 16.2): the refusal, and the total.
pub fn total(cards: &[u8], operands: &[u32]) -> (u8, u32) {
    if let Err(refusal) = judge(cards, operands) {
        return (refusal, 0);
    }
    let mut sum = 0u32;
    for &operand in operands {
        sum = sum.wrapping_add(operand);
    }
    (0, sum)
}

/// The reading by card (RULES 16.3): the refusal, and the total.
pub fn total_by_card(cards: &[u8], operands: &[u32]) -> (u8, u32) {
    if let Err(refusal) = judge(cards, operands) {
        return (refusal, 0);
    }
    let sums = groups(cards, operands).map(u128::from);
    (0, modulo(sums.iter().sum()))
}

/// The sum of each card's group, by card; of a log that is not refused.
pub fn groups(cards: &[u8], operands: &[u32]) -> [u32; 8] {
    let mut sums = [0u128; 8];
    for (&card, &operand) in cards.iter().zip(operands) {
        sums[card as usize] += u128::from(operand);
    }
    sums.map(modulo)
}

fn modulo(sum: u128) -> u32 {
    (sum % 4_294_967_296) as u32
}

#[cfg(test)]
mod tests {
    use super::*;
    use crate::generate::logs;
    use crate::random::Random;

    const TOP: u32 = u32::MAX;

    /// What both give.
    fn both(cards: &[u8], operands: &[u32]) -> (u8, u32) {
        let answer = total(cards, operands);
        assert_eq!(total_by_card(cards, operands), answer);
        answer
    }

    #[test]
    fn of_nothing() {
        assert_eq!(both(&[], &[]), (0, 0));
        assert_eq!(groups(&[], &[]), [0; 8]);
    }

    /// RULES 16.9.
    #[test]
    fn the_example() {
        let (cards, operands) = ([2, 0, 2], [TOP, 3, 5]);
        assert_eq!(both(&cards[..1], &operands[..1]), (0, TOP));
        assert_eq!(both(&cards[..2], &operands[..2]), (0, 2));
        assert_eq!(both(&cards, &operands), (0, 7));
        assert_eq!(groups(&cards, &operands), [3, 0, 4, 0, 0, 0, 0, 0]);
    }

    /// At 0, in a group, and only where the groups come together.
    #[test]
    fn where_it_comes_round() {
        assert_eq!(both(&[7], &[TOP]), (0, TOP));
        assert_eq!(both(&[7, 7], &[TOP, 1]), (0, 0));
        assert_eq!(both(&[0, 7], &[1 << 31, 1 << 31]), (0, 0));
        assert_eq!(both(&[0, 7, 3], &[TOP; 3]), (0, TOP - 2));
        assert_eq!(groups(&[0, 7, 3, 3], &[TOP; 4])[3], TOP - 1);
        let all: [u8; 8] = [0, 1, 2, 3, 4, 5, 6, 7];
        assert_eq!(both(&all, &[TOP; 8]), (0, TOP - 7));
        assert_eq!(groups(&all, &[TOP; 8]), [TOP; 8]);
    }

    #[test]
    fn refused() {
        for length in [0, 1, 2, 4, 300] {
            assert_eq!(both(&[1, 2, 3], &vec![5; length]), (3, 0), "{length}");
            assert_eq!(both(&vec![5; length], &[1, 2, 3]), (3, 0), "{length}");
        }
        for (card, refusal) in [(7, 0), (8, 14), (9, 14), (128, 14), (255, 14)] {
            for place in 0..3 {
                let mut cards = [0, 1, 2];
                cards[place] = card;
                let total = if refusal == 0 { 15 } else { 0 };
                assert_eq!(both(&cards, &[5; 3]), (refusal, total), "{card} {place}");
            }
        }
        assert_eq!(both(&[8], &[]), (3, 0), "3 before 14");
        assert_eq!(both(&[1, 255], &[1, 2, 3]), (3, 0), "3 before 14");
    }

    /// RULES 16.5.
    #[test]
    fn both_are_one() {
        let mut refusals = [0; 256];
        for item in 0..2_000 {
            let Log { cards, operands } = logs::log(&mut Random::new(16, item));
            refusals[both(&cards, &operands).0 as usize] += 1;
        }
        let [taken, unequal, above] = [0, 3, 14].map(|refusal| refusals[refusal]);
        assert_eq!(taken + unequal + above, 2_000);
        assert!(taken > 1_000 && unequal > 200 && above > 200);
    }
}
