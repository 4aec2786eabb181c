//! What a taken step gives.

use core::fmt;

use crate::Refusal;

/// The result of a taken step 8 whose message is held, in an answer file (RULES 4.2). It is no
/// refusal.
pub const HELD: u8 = 100;

/// What a taken step gives (RULES 4.2, 4.3). In words: "taken", or "held".
///
/// ```
/// use gondzselu::{Function, Placement, Refusal, Step, Store, Taken};
///
/// // Register 0 lies on both cards, register 1 on card 1 alone. Task 0, on card 0, sets both.
/// let place = Placement { cards: 2, homes: &[0], copies: &[0b11, 0b10], primaries: &[0, 1] };
/// let mut store = Store::start(place)?;
/// let set = |register| Step::RequestUpdate { task: 0, register, function: Function::Set, operand: 7 };
/// for step in [set(0), Step::SendUpdate { task: 0 }, Step::Dispatch { card: 0 }] {
///     store.step(step)?;
/// }
/// for step in [Step::TakeBroadcast { card: 0 }, Step::Deliver { card: 0 }, Step::Report { task: 0 }] {
///     assert_eq!(store.step(step), Ok(Taken { value: 0, held: false }));
/// }
/// for step in [set(1), Step::SendUpdate { task: 0 }, Step::Dispatch { card: 0 }] {
///     store.step(step)?;
/// }
///
/// // The second message overtakes the broadcast, so card 1 holds it: nothing to deliver yet.
/// let taken = store.step(Step::TakeSingle { task: 0 })?;
/// assert_eq!((taken.held, taken.result(), taken.to_string().as_str()), (true, 100, "held"));
/// assert_eq!(store.step(Step::Deliver { card: 1 }), Err(Refusal::InboxEmpty));
/// # Ok::<(), Refusal>(())
/// ```
#[derive(Clone, Copy, Debug, PartialEq, Eq, Hash)]
pub struct Taken {
    /// Of a report the value read, or the value that the update found: that of the copy just before
    /// it. Of every other step it is 0.
    pub value: u32,
    /// Whether the message of a step 8 is held at its destination until the broadcast that its tag
    /// names is taken there. Of every other step it is false.
    pub held: bool,
}

impl Taken {
    /// The result, as in an answer file: 0, or [`HELD`].
    #[inline]
    pub const fn result(self) -> u8 {
        if self.held {
            HELD
        } else {
            0
        }
    }

    /// From the result and the value that the library gives.
    #[inline]
    pub(crate) const fn from_library((result, value): (u8, u32)) -> Result<Taken, Refusal> {
        // 0 is asked for first: nearly every step has it.
        if result == 0 {
            return Ok(Taken { value, held: false });
        }
        match Refusal::from_number(result) {
            None => Ok(Taken { value, held: true }),
            Some(refusal) => Err(refusal),
        }
    }
}

/// In words, without the value.
impl fmt::Display for Taken {
    fn fmt(&self, f: &mut fmt::Formatter<'_>) -> fmt::Result {
        f.pad(if self.held { "held" } else { "taken" })
    }
}

#[cfg(test)]
mod tests {
    use super::*;

    #[test]
    fn two_results_are_taken() {
        for result in 0..=255 {
            let answer = Taken::from_library((result, 7));
            assert_eq!(answer.map_or_else(Refusal::number, Taken::result), result);
            let taken = match result {
                0 | 100 => Some((7, result == 100)),
                _ => None,
            };
            assert_eq!(answer.ok().map(|taken| (taken.value, taken.held)), taken);
        }
    }
}
