//! The ten steps and the functions of an update.

use core::fmt;

use crate::Refusal;

/// What an update does to the value of a copy (RULES chapter 2).
///
/// ```
/// use gondzselu::Function;
///
/// assert_eq!(Function::from_number(5), Some(Function::AddComesRound));
/// assert_eq!(Function::AddStaysAtTheTop.to_string(), "add, stays at the top");
/// ```
#[derive(Clone, Copy, Debug, PartialEq, Eq, Hash)]
pub enum Function {
    /// 1: the operand.
    Set,
    /// 2: the sum of value and operand, or 4,294,967,295 where that is smaller: a counter at its
    /// top stays there.
    AddStaysAtTheTop,
    /// 3: the larger of value and operand.
    Larger,
    /// 4: the bitwise or of value and operand.
    Or,
    /// 5: the sum of value and operand, modulo 4,294,967,296: a counter at its top comes round to
    /// zero.
    AddComesRound,
}

impl Function {
    /// The number, as in a run file.
    pub const fn number(self) -> u8 {
        match self {
            Function::Set => 1,
            Function::AddStaysAtTheTop => 2,
            Function::Larger => 3,
            Function::Or => 4,
            Function::AddComesRound => 5,
        }
    }

    /// The function with this number, if it is 1 to 5.
    pub const fn from_number(number: u8) -> Option<Function> {
        match number {
            1 => Some(Function::Set),
            2 => Some(Function::AddStaysAtTheTop),
            3 => Some(Function::Larger),
            4 => Some(Function::Or),
            5 => Some(Function::AddComesRound),
            _ => None,
        }
    }
}

/// Its name: set; add, stays at the top; larger; or; add, comes round.
impl fmt::Display for Function {
    fn fmt(&self, f: &mut fmt::Formatter<'_>) -> fmt::Result {
        f.pad(match self {
            Function::Set => "set",
            Function::AddStaysAtTheTop => "add, stays at the top",
            Function::Larger => "larger",
            Function::Or => "or",
            Function::AddComesRound => "add, comes round",
        })
    }
}

/// One of the ten steps (RULES chapter 5). Cards, tasks and registers are numbered from 0; a
/// step that names an absent one is refused.
///
/// ```
/// use gondzselu::{Function, Refusal, Step};
///
/// let step = Step::RequestUpdate { task: 2, register: 0, function: Function::Set, operand: 7 };
/// assert_eq!((step.code(), step.argument()), (2, [2, 0, 1, 0, 7, 0, 0, 0]));
/// assert_eq!(Step::from_bytes(2, [2, 0, 1, 0, 7, 0, 0, 0]), Ok(step));
/// assert_eq!(Step::from_bytes(11, [0; 8]), Err(Refusal::UnknownCode));
/// assert_eq!(step.to_string(), "request update, task 2, register 0, set 7");
/// ```
#[derive(Clone, Copy, Debug, PartialEq, Eq, Hash)]
pub enum Step {
    /// 1: a quiet task asks to read.
    RequestRead {
        /// The task that asks.
        task: u8,
        /// The register to read.
        register: u8,
    },
    /// 2: a quiet task asks to update.
    RequestUpdate {
        /// The task that asks.
        task: u8,
        /// The register to update.
        register: u8,
        /// What is done to the value of each copy.
        function: Function,
        /// With what it is done.
        operand: u32,
    },
    /// 3: a read of a copy at home, or an update of the only copy, at home, is done at once.
    Perform {
        /// The task that asks.
        task: u8,
    },
    /// 4: a read message joins the outbox of the task's home, which holds no copy.
    SendRead {
        /// The task that asks to read.
        task: u8,
        /// The chosen card, which holds a copy.
        card: u8,
    },
    /// 5: an update message to all holders joins the outbox of the task's home.
    SendUpdate {
        /// The task that asks to update.
        task: u8,
    },
    /// 6: the first message of an outbox becomes the next broadcast, or is in flight.
    Dispatch {
        /// The card whose outbox it is.
        card: u8,
    },
    /// 7: a card takes the next broadcast.
    TakeBroadcast {
        /// The card that takes it.
        card: u8,
    },
    /// 8: a message in flight reaches its card, where it joins the inbox or is held
    /// ([`Taken::held`](crate::Taken::held)).
    TakeSingle {
        /// The task whose message it is.
        task: u8,
    },
    /// 9: the first message of an inbox takes effect.
    Deliver {
        /// The card whose inbox it is.
        card: u8,
    },
    /// 10: a task that is done becomes quiet; the value that was read, or that its update found, is
    /// answered ([`Taken::value`](crate::Taken::value)).
    Report {
        /// The task that is done.
        task: u8,
    },
}

impl Step {
    /// The code, 1 to 10.
    pub const fn code(self) -> u8 {
        match self {
            Step::RequestRead { .. } => 1,
            Step::RequestUpdate { .. } => 2,
            Step::Perform { .. } => 3,
            Step::SendRead { .. } => 4,
            Step::SendUpdate { .. } => 5,
            Step::Dispatch { .. } => 6,
            Step::TakeBroadcast { .. } => 7,
            Step::TakeSingle { .. } => 8,
            Step::Deliver { .. } => 9,
            Step::Report { .. } => 10,
        }
    }

    /// The argument's eight bytes (RULES 3.3); those that the code does not name are zero.
    pub const fn argument(self) -> [u8; 8] {
        match self {
            Step::RequestRead { task, register } => [task, register, 0, 0, 0, 0, 0, 0],
            Step::RequestUpdate {
                task,
                register,
                function,
                operand,
            } => {
                let [a, b, c, d] = operand.to_le_bytes();
                [task, register, function.number(), 0, a, b, c, d]
            }
            Step::SendRead { task, card } => [task, card, 0, 0, 0, 0, 0, 0],
            Step::Perform { task: first }
            | Step::SendUpdate { task: first }
            | Step::Dispatch { card: first }
            | Step::TakeBroadcast { card: first }
            | Step::TakeSingle { task: first }
            | Step::Deliver { card: first }
            | Step::Report { task: first } => [first, 0, 0, 0, 0, 0, 0, 0],
        }
    }

    /// The step with this code and argument, if the bytes alone make one; else 10, 11 or 15.
    /// Whether its task, register and card are there, only a store can tell; where one is
    /// absent and the function is unknown too, a store answers that first.
    pub fn from_bytes(code: u8, argument: [u8; 8]) -> Result<Step, Refusal> {
        let [first, second, third, unnamed, a, b, c, d] = argument;
        let step = match code {
            1 => Step::RequestRead {
                task: first,
                register: second,
            },
            2 if unnamed != 0 => return Err(Refusal::UnnamedByte),
            2 => Step::RequestUpdate {
                task: first,
                register: second,
                function: Function::from_number(third).ok_or(Refusal::UnknownFunction)?,
                operand: u32::from_le_bytes([a, b, c, d]),
            },
            3 => Step::Perform { task: first },
            4 => Step::SendRead {
                task: first,
                card: second,
            },
            5 => Step::SendUpdate { task: first },
            6 => Step::Dispatch { card: first },
            7 => Step::TakeBroadcast { card: first },
            8 => Step::TakeSingle { task: first },
            9 => Step::Deliver { card: first },
            10 => Step::Report { task: first },
            _ => return Err(Refusal::UnknownCode),
        };
        // What is not named comes back as zero.
        if step.argument() == argument {
            Ok(step)
        } else {
            Err(Refusal::UnnamedByte)
        }
    }
}

/// In words: the step's name, then what it names.
impl fmt::Display for Step {
    fn fmt(&self, f: &mut fmt::Formatter<'_>) -> fmt::Result {
        match self {
            Step::RequestRead { task, register } => {
                write!(f, "request read, task {task}, register {register}")
            }
            Step::RequestUpdate {
                task,
                register,
                function,
                operand,
            } => write!(
                f,
                "request update, task {task}, register {register}, {function} {operand}"
            ),
            Step::Perform { task } => write!(f, "perform, task {task}"),
            Step::SendRead { task, card } => write!(f, "send read, task {task}, to card {card}"),
            Step::SendUpdate { task } => write!(f, "send update, task {task}"),
            Step::Dispatch { card } => write!(f, "dispatch, card {card}"),
            Step::TakeBroadcast { card } => write!(f, "take broadcast, card {card}"),
            Step::TakeSingle { task } => write!(f, "take single, task {task}"),
            Step::Deliver { card } => write!(f, "deliver, card {card}"),
            Step::Report { task } => write!(f, "report, task {task}"),
        }
    }
}
