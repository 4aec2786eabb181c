//! What a task is doing.

use core::fmt;

/// The condition of a task (RULES 1.8). In words: "quiet", "asking to read", "asking to update",
/// "waiting", "done with a read", "done with an update".
///
/// ```
/// use gondzselu::Condition;
///
/// let condition = Condition::DoneRead(7);
/// assert_eq!((condition.number(), condition.value()), (4, 7));
/// assert_eq!(condition.to_string(), "done with a read");
/// let condition = Condition::DoneUpdate(6); // the copy was 6 just before the update
/// assert_eq!((condition.number(), condition.value()), (5, 6));
/// ```
#[derive(Clone, Copy, Debug, PartialEq, Eq, Hash)]
pub enum Condition {
    /// 0: it may make a request.
    Quiet,
    /// 1: it asks to read.
    AskingRead,
    /// 2: it asks to update, with this operand.
    AskingUpdate(u32),
    /// 3: its message is on the way.
    Waiting,
    /// 4: it is done with a read, of this value.
    DoneRead(u32),
    /// 5: it is done with an update, which found this value.
    DoneUpdate(u32),
}

impl Condition {
    /// The number, 0 to 5.
    pub const fn number(self) -> u8 {
        match self {
            Condition::Quiet => 0,
            Condition::AskingRead => 1,
            Condition::AskingUpdate(_) => 2,
            Condition::Waiting => 3,
            Condition::DoneRead(_) => 4,
            Condition::DoneUpdate(_) => 5,
        }
    }

    /// The operand of an update asked for, the value read, or the value that the update found;
    /// else 0.
    pub const fn value(self) -> u32 {
        match self {
            Condition::AskingUpdate(value)
            | Condition::DoneRead(value)
            | Condition::DoneUpdate(value) => value,
            _ => 0,
        }
    }

    /// From what the library gives: 0 to 5, whatever the words are; it reads a word that is no
    /// condition as 5 itself.
    pub(crate) const fn from_library(number: u32, value: u32) -> Condition {
        match number {
            0 => Condition::Quiet,
            1 => Condition::AskingRead,
            2 => Condition::AskingUpdate(value),
            3 => Condition::Waiting,
            4 => Condition::DoneRead(value),
            _ => Condition::DoneUpdate(value),
        }
    }
}

/// In words, without the operand or the value.
impl fmt::Display for Condition {
    fn fmt(&self, f: &mut fmt::Formatter<'_>) -> fmt::Result {
        f.pad(match self {
            Condition::Quiet => "quiet",
            Condition::AskingRead => "asking to read",
            Condition::AskingUpdate(_) => "asking to update",
            Condition::Waiting => "waiting",
            Condition::DoneRead(_) => "done with a read",
            Condition::DoneUpdate(_) => "done with an update",
        })
    }
}
