//! The total of a register's log.

use crate::refusal::done;
use crate::{library, raw, Refusal};

/// Adds up a log of a register (RULES chapter 16): its operands as they stand, modulo
/// 4,294,967,296.
///
/// A log is two lists over updates by [`AddComesRound`](crate::Function::AddComesRound): the home
/// card of each one's task, and each one's operand. Any two lists may be handed in, of any length;
/// of empty ones the total is 0. If a register's primary has applied the updates of the log and no
/// others, the total is the value of its copy (`examples/totals.rs`).
///
/// Refusals: 3 for lists of unequal length, then 14 for a card number above 7, whatever number of
/// cards a store has.
///
/// ```
/// use gondzselu::{total, total_by_card, Refusal};
///
/// let (cards, operands) = ([2, 0, 2], [4_294_967_295, 3, 5]);
/// assert_eq!(total(&cards[..2], &operands[..2]), Ok(2));
/// assert_eq!(total(&cards, &operands), Ok(7));
/// assert_eq!(total_by_card(&cards, &operands), Ok(7)); // 3 of card 0, 4 of card 2
///
/// assert_eq!(total(&cards, &operands[..2]), Err(Refusal::SizeOutOfRange));
/// assert_eq!(total(&[2, 8, 2], &operands), Err(Refusal::AbsentCard));
/// ```
///
/// # Panics
///
/// If the library linked is not the one that this crate is for
/// ([`check_library`](crate::check_library)).
pub fn total(cards: &[u8], operands: &[u32]) -> Result<u32, Refusal> {
    library::require();
    given(raw::total(cards, operands))
}

/// The same as [`total()`], added up card by card, then over the eight cards. For every two lists
/// both give the same.
///
/// ```
/// use gondzselu::{total_by_card, Refusal};
///
/// assert_eq!(total_by_card(&[], &[]), Ok(0));
/// assert_eq!(total_by_card(&[7, 1, 7], &[10, 20, 30]), Ok(60));
/// assert_eq!(total_by_card(&[8], &[]), Err(Refusal::SizeOutOfRange));
/// assert_eq!(total_by_card(&[8], &[10]), Err(Refusal::AbsentCard));
/// ```
///
/// # Panics
///
/// As [`total()`].
pub fn total_by_card(cards: &[u8], operands: &[u32]) -> Result<u32, Refusal> {
    library::require();
    given(raw::total_by_card(cards, operands))
}

fn given((refusal, total): (u8, u32)) -> Result<u32, Refusal> {
    done(refusal)?;
    Ok(total)
}

#[cfg(test)]
mod tests {
    use super::*;

    /// What the library writes beside a refusal, which `total` does not hand on.
    #[test]
    fn the_total_of_a_refused_log_is_zero() {
        for call in [raw::total, raw::total_by_card] {
            assert_eq!(call(&[0, 1], &[5]), (3, 0));
            assert_eq!(call(&[0], &[5, 6]), (3, 0));
            assert_eq!(call(&[0, 8], &[5, 6]), (14, 0));
            assert_eq!(call(&[0, 7], &[5, 6]), (0, 11));
        }
    }

    #[test]
    fn a_refused_log_has_no_total() {
        assert_eq!(given((0, 11)), Ok(11));
        assert_eq!(given((3, 0)), Err(Refusal::SizeOutOfRange));
        assert_eq!(given((14, 11)), Err(Refusal::AbsentCard));
    }
}
