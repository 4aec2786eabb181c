//! The packed words, of messages, tasks and registers (RULES 11.12). The last field of each has all
//! bits above. What is used as an index is masked to its array.

/// Two words, as in the proved store: a packed one, and the operand of an update or the value of a
/// reply, read or found.
#[derive(Clone, Copy, PartialEq)]
pub struct Message {
    pub word: u32,
    pub value: u32,
}

impl Message {
    pub const NONE: Message = Message { word: 0, value: 0 };
}

// Of a message: kind 3 bits, task 4, register 5, function 3, destinations 17.
pub const TASK: u32 = 3;
pub const REGISTER: u32 = 7;
pub const FUNCTION: u32 = 12;
pub const TO: u32 = 15;

// Kinds of message; 0 in a task's place for flight says that nothing is there.
pub const READ: u32 = 1;
pub const UPDATE: u32 = 2;
pub const REPLY_READ: u32 = 3;
pub const REPLY_UPDATE: u32 = 4;

// Of a task: condition 3 bits, register asked for 5, function asked for 3, home 21. A task that asks
// has the kind of the message that it would send.
pub const ASKED: u32 = 3;
pub const ASKED_FUNCTION: u32 = 8;
pub const HOME: u32 = 11;

// Conditions (RULES 1.8), besides READ and UPDATE.
pub const QUIET: u32 = 0;
pub const WAITING: u32 = 3;
pub const DONE_READ: u32 = 4;
pub const DONE_UPDATE: u32 = 5;

// Of a register: primary 3 bits, holders 29.
pub const HOLDERS: u32 = 3;

/// Of a message, a task or a register: the kind, the condition, the primary.
#[inline]
pub const fn lowest(word: u32) -> u32 {
    word & 7
}

/// The task's word in another condition.
#[inline]
pub const fn with_condition(task: u32, condition: u32) -> u32 {
    task & !7 | condition
}

#[inline]
pub const fn task(message: u32) -> usize {
    (message >> TASK) as usize & 15
}

#[inline]
pub const fn register(message: u32) -> usize {
    (message >> REGISTER) as usize & 31
}

#[inline]
pub const fn home(task: u32) -> usize {
    (task >> HOME) as usize & 7
}

#[inline]
pub const fn asked(task: u32) -> usize {
    (task >> ASKED) as usize & 31
}

/// More than one destination: bits are not counted, as not every processor has an order for it.
#[inline]
pub const fn several(message: u32) -> bool {
    let to = message >> TO;
    to & to.wrapping_sub(1) != 0
}

/// Whether a field of three bits is one of the five functions.
#[inline]
pub const fn known(function: u32) -> bool {
    matches!(function & 7, 1..=5)
}

/// A copy's value after an update (RULES 2.1 to 2.5); a function that is none leaves it.
#[inline]
pub fn apply(function: u32, value: u32, operand: u32) -> u32 {
    match function & 7 {
        1 => operand,
        2 => value.saturating_add(operand),
        3 => value.max(operand),
        4 => value | operand,
        5 => value.wrapping_add(operand),
        _ => value,
    }
}
