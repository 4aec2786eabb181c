//! The total of a log (RULES 16), as it stands and by card: 0 and the total, or 3 or 14 and 0.

/// The first refusal that applies, or 0. The loop over the cards has no way out, as the long ones of
/// the state's check.
fn judged(cards: &[u8], operands: &[u32]) -> u8 {
    if cards.len() != operands.len() {
        3
    } else if cards.iter().fold(true, |known, &card| known & (card <= 7)) {
        0
    } else {
        14
    }
}

pub fn total(cards: &[u8], operands: &[u32]) -> (u8, u32) {
    match judged(cards, operands) {
        0 => (0, sum(operands)),
        refusal => (refusal, 0),
    }
}

/// One pass over the log. The mask changes no card that is there, and leaves no bound to check.
pub fn total_by_card(cards: &[u8], operands: &[u32]) -> (u8, u32) {
    match judged(cards, operands) {
        0 => {
            let mut sums = [0u32; 8];
            for (&card, &operand) in cards.iter().zip(operands) {
                let sum = &mut sums[usize::from(card & 7)];
                *sum = sum.wrapping_add(operand);
            }
            (0, sum(&sums))
        }
        refusal => (refusal, 0),
    }
}

fn sum(operands: &[u32]) -> u32 {
    operands
        .iter()
        .fold(0, |sum, &operand| sum.wrapping_add(operand))
}
