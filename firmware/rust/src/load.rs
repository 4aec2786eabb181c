//! A run file drawn from a seed.

use crate::refusal::done;
use crate::{library, raw, Placement, Refusal};

/// Draws the load of a seed, a placement and a number of steps into an output that is lent, and
/// gives the file's length (RULES chapter 17). Whoever draws it gets the same bytes. The output
/// from there on stays as it was; [`LONGEST_FILE`](crate::LONGEST_FILE) bytes are always enough.
///
/// [`answer`](crate::answer) accepts every load. Its steps have codes, tasks, registers, cards and
/// functions that are there, so none is refused with 10 to 15. Other refusals come often: nothing
/// of the store is looked at when a step is drawn.
///
/// Refusals: 3 if a size is out of range, that of the steps too, or copies and primaries are of
/// unequal length; then 4 of the placement; then 5 of the output. The whole output then stays as
/// it was.
///
/// ```
/// use gondzselu::{load, Placement, Refusal};
///
/// let place = Placement { cards: 2, homes: &[0, 1], copies: &[3, 2], primaries: &[0, 1] };
/// let mut file = [0; 38];
/// assert_eq!(load(2, place, 3, &mut file), Ok(38));
/// assert_eq!(file[..11], [2, 2, 2, 3, 0, 0, 1, 3, 2, 0, 1]);
/// assert_eq!(file[11..14], [2, 3, 6]); // request update, perform, dispatch
/// assert_eq!(file[14..22], [0, 1, 2, 0, 0x8D, 0xB7, 0, 0]); // task, register, function, operand
/// assert_eq!(file[22..30], [1, 0, 0, 0, 0, 0, 0, 0]); // task 1
/// assert_eq!(file[30..], [0; 8]); // card 0
///
/// assert_eq!(load(2, place, 4_097, &mut file), Err(Refusal::SizeOutOfRange));
/// assert_eq!(load(2, place, 3, &mut file[..37]), Err(Refusal::OutputTooShort));
/// ```
///
/// # Panics
///
/// If the library linked is not the one that this crate is for
/// ([`check_library`](crate::check_library)).
pub fn load(
    seed: u32,
    placement: Placement<'_>,
    steps: usize,
    output: &mut [u8],
) -> Result<usize, Refusal> {
    library::require();
    let (refusal, length) = raw::load(seed, placement, counted(steps), output);
    done(refusal)?;
    Ok(length as usize)
}

/// As the library takes it. A number past 32 bits is refused as the largest is, and none wraps.
fn counted(steps: usize) -> u32 {
    u32::try_from(steps).unwrap_or(u32::MAX)
}

#[cfg(test)]
mod tests {
    use super::*;

    const PLACE: Placement<'_> = Placement {
        cards: 1,
        homes: &[0],
        copies: &[1],
        primaries: &[0],
    };

    /// What the library writes beside a refusal, which `load` does not hand on.
    #[test]
    fn the_length_of_a_refused_load_is_zero() {
        let mut output = [0; 16];
        let absent = Placement {
            homes: &[1],
            ..PLACE
        };
        assert_eq!(raw::load(0, PLACE, 4_097, &mut output), (3, 0));
        assert_eq!(raw::load(0, absent, 0, &mut output), (4, 0));
        assert_eq!(raw::load(0, PLACE, 1, &mut output), (5, 0));
        assert_eq!(raw::load(0, PLACE, 0, &mut output), (0, 8));
    }

    #[test]
    fn no_number_of_steps_wraps() {
        assert_eq!([0, 4_096, 4_097].map(counted), [0, 4_096, 4_097]);
        assert_eq!(counted(usize::MAX), u32::MAX);
        #[cfg(target_pointer_width = "64")]
        assert_eq!([0, 1].map(|low| counted((1 << 32) + low)), [u32::MAX; 2]);
    }
}
