//! Whole run files, and the tally.

use crate::refusal::done;
use crate::{library, raw, Refusal};

/// Steps taken and steps refused (RULES chapter 9). Each count goes up to 4,294,967,295 and
/// stays there.
#[derive(Clone, Copy, Debug, Default, PartialEq, Eq, Hash)]
#[repr(C)]
pub struct Tally {
    /// Steps with result 0, or [`HELD`](crate::HELD).
    pub taken: u32,
    /// Steps with any other result, 6 too.
    pub refused: u32,
}

/// Answers a run file into an output that is lent, and gives the answer's length (RULES
/// chapters 3 and 4). The output from there on stays as it was; [`LONGEST_ANSWER`] bytes are
/// always enough.
///
/// In the answer a step's result is 0, or [`HELD`](crate::HELD) where step 8's message is held, or
/// its refusal, which is no refusal of the file.
///
/// Refusals: 1 to 4 of the file, 5 of the output. The whole output then stays as it was.
///
/// The run has a store of its own on the stack, 7,508 bytes and a little more.
///
/// ```
/// use gondzselu::{answer, Refusal, LONGEST_ANSWER};
///
/// // One card, one register, one task, two steps: a request to read, and one to perform.
/// let file = [
///     1, 1, 1, 2, 0, 0, 1, 0, 1, 3, 0, 0, 0, 0, 0, 0, 0, 0, 0, 0, 0, 0, 0, 0, 0, 0,
/// ];
/// let mut output = [0; LONGEST_ANSWER];
/// let length = answer(&file, &mut output)?;
/// // Two steps, both taken, both with value 0.
/// assert_eq!(output[..length], [2, 0, 0, 0, 0, 0, 0, 0, 0, 0, 0, 0]);
///
/// assert_eq!(answer(&file[..25], &mut output), Err(Refusal::FileTooShort));
/// assert_eq!(answer(&file, &mut output[..11]), Err(Refusal::OutputTooShort));
/// # Ok::<(), Refusal>(())
/// ```
///
/// # Panics
///
/// If the library linked is not the one that this crate is for
/// ([`check_library`](crate::check_library)).
///
/// [`LONGEST_ANSWER`]: crate::LONGEST_ANSWER
pub fn answer(file: &[u8], output: &mut [u8]) -> Result<usize, Refusal> {
    library::require();
    done(raw::answer(file, output))?;
    Ok(length(output))
}

/// The same as [`answer`], with the run's steps counted in a tally that is lent. A refusal of
/// the file or of the output leaves the tally as it was.
///
/// ```
/// use gondzselu::{answer_counted, Tally};
///
/// // One card, one register, one task, one step: nothing is asked, so it is refused.
/// let file = [1, 1, 1, 1, 0, 0, 1, 0, 3, 0, 0, 0, 0, 0, 0, 0, 0];
/// let (mut output, mut tally) = ([0; 7], Tally::default());
/// assert_eq!(answer_counted(&file, &mut output, &mut tally), Ok(7));
/// assert_eq!(output, [1, 0, 21, 0, 0, 0, 0]);
/// assert_eq!(tally, Tally { taken: 0, refused: 1 });
/// ```
///
/// # Panics
///
/// As [`answer`].
pub fn answer_counted(file: &[u8], output: &mut [u8], tally: &mut Tally) -> Result<usize, Refusal> {
    library::require();
    done(raw::answer_counted(file, output, tally))?;
    Ok(length(output))
}

/// The length of an answer, which begins with the number of steps.
fn length(answer: &[u8]) -> usize {
    2 + 5 * usize::from(u16::from_le_bytes([answer[0], answer[1]]))
}
