//! A run file written from a placement and steps.

use core::fmt;

use crate::refusal::done;
use crate::{library, raw, Placement, Refusal, Step};

/// At most `N` steps in the order of their run, in the two tables that the library takes: codes
/// and arguments, nine bytes a step. A run file has at most [`MAX_STEPS`](crate::MAX_STEPS) steps.
///
/// ```
/// use gondzselu::{Refusal, Step, Steps};
///
/// let mut steps = Steps::<2>::new();
/// steps.push(Step::Perform { task: 3 })?;
/// steps.push(Step::Report { task: 3 })?;
/// assert_eq!(steps.codes(), [3, 10]);
/// assert_eq!(steps.push(Step::Dispatch { card: 0 }), Err(Refusal::SizeOutOfRange));
/// assert_eq!(steps.len(), 2);
/// # Ok::<(), Refusal>(())
/// ```
#[derive(Clone)]
pub struct Steps<const N: usize> {
    codes: [u8; N],
    arguments: [[u8; 8]; N],
    /// What lies past it is left from before a `clear` and means nothing.
    length: usize,
}

impl<const N: usize> Steps<N> {
    /// No steps. They may be in a `static`, as [`Store::unstarted`](crate::Store::unstarted) may.
    pub const fn new() -> Steps<N> {
        Steps {
            codes: [0; N],
            arguments: [[0; 8]; N],
            length: 0,
        }
    }

    /// Adds a step at the end. With `N` steps it is refused with 3, and nothing is added.
    pub fn push(&mut self, step: Step) -> Result<(), Refusal> {
        self.push_bytes(step.code(), step.argument())
    }

    /// [`push`](Steps::push) of a code and its argument, right or wrong: nothing looks at them
    /// before the run, which refuses a wrong step and goes on.
    pub fn push_bytes(&mut self, code: u8, argument: [u8; 8]) -> Result<(), Refusal> {
        if self.length == N {
            return Err(Refusal::SizeOutOfRange);
        }
        self.codes[self.length] = code;
        self.arguments[self.length] = argument;
        self.length += 1;
        Ok(())
    }

    /// Takes all steps out.
    pub fn clear(&mut self) {
        self.length = 0;
    }

    /// How many steps there are.
    pub const fn len(&self) -> usize {
        self.length
    }

    /// Whether there is none.
    pub const fn is_empty(&self) -> bool {
        self.length == 0
    }

    /// The code of each step.
    pub fn codes(&self) -> &[u8] {
        &self.codes[..self.length]
    }

    /// The arguments one after another, eight bytes a step.
    pub fn arguments(&self) -> &[u8] {
        self.arguments[..self.length].as_flattened()
    }
}

impl<const N: usize> Default for Steps<N> {
    fn default() -> Steps<N> {
        Steps::new()
    }
}

/// The same steps in the same order.
impl<const N: usize> PartialEq for Steps<N> {
    fn eq(&self, other: &Steps<N>) -> bool {
        self.codes() == other.codes() && self.arguments() == other.arguments()
    }
}

impl<const N: usize> Eq for Steps<N> {}

impl<const N: usize> fmt::Debug for Steps<N> {
    fn fmt(&self, f: &mut fmt::Formatter<'_>) -> fmt::Result {
        let arguments = &self.arguments[..self.length];
        f.debug_list()
            .entries(self.codes().iter().zip(arguments))
            .finish()
    }
}

/// Writes the run file of a placement and steps into an output that is lent, and gives the file's
/// length (RULES chapter 15). The output from there on stays as it was;
/// [`LONGEST_FILE`](crate::LONGEST_FILE) bytes are always enough.
///
/// [`answer`](crate::answer) accepts every file that is written. A file that it accepts, taken
/// apart into placement and steps, is written again byte for byte.
///
/// Refusals: 3 if a size is out of range, that of the steps too, or copies and primaries are of
/// unequal length; then 4 of the placement; then 5 of the output. The whole output then stays as
/// it was.
///
/// ```
/// use gondzselu::{answer, write, Placement, Refusal, Step, Steps};
///
/// let place = Placement { cards: 1, homes: &[0], copies: &[1], primaries: &[0] };
/// let mut steps = Steps::<2>::new();
/// steps.push(Step::RequestRead { task: 0, register: 0 })?;
/// steps.push(Step::Perform { task: 0 })?;
/// let mut file = [0; 64];
/// let length = write(place, &steps, &mut file)?;
/// assert_eq!(file[..10], [1, 1, 1, 2, 0, 0, 1, 0, 1, 3]);
///
/// let mut answers = [9; 12];
/// assert_eq!((length, answer(&file[..length], &mut answers)), (26, Ok(12)));
/// assert_eq!(answers, [2, 0, 0, 0, 0, 0, 0, 0, 0, 0, 0, 0]);
///
/// assert_eq!(write(place, &steps, &mut file[..25]), Err(Refusal::OutputTooShort));
/// # Ok::<(), Refusal>(())
/// ```
///
/// # Panics
///
/// If the library linked is not the one that this crate is for
/// ([`check_library`](crate::check_library)).
pub fn write<const N: usize>(
    placement: Placement<'_>,
    steps: &Steps<N>,
    output: &mut [u8],
) -> Result<usize, Refusal> {
    write_bytes(placement, steps.codes(), steps.arguments(), output)
}

/// [`write()`] from two tables of the caller's: the code of each step, and the arguments one after
/// another, eight bytes a step. Arguments of another length are refused with 3. Codes and
/// arguments are carried as they are.
///
/// ```
/// use gondzselu::{write_bytes, Placement, Refusal};
///
/// let place = Placement { cards: 1, homes: &[0], copies: &[1], primaries: &[0] };
/// let mut file = [0; 17];
/// assert_eq!(write_bytes(place, &[99], &[7; 8], &mut file), Ok(17));
/// assert_eq!(file, [1, 1, 1, 1, 0, 0, 1, 0, 99, 7, 7, 7, 7, 7, 7, 7, 7]);
/// assert_eq!(write_bytes(place, &[99], &[7; 7], &mut file), Err(Refusal::SizeOutOfRange));
/// ```
///
/// # Panics
///
/// As [`write()`].
pub fn write_bytes(
    placement: Placement<'_>,
    codes: &[u8],
    arguments: &[u8],
    output: &mut [u8],
) -> Result<usize, Refusal> {
    library::require();
    let (refusal, length) = raw::write(placement, codes, arguments, output);
    done(refusal)?;
    Ok(length as usize)
}
