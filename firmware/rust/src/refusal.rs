//! Why something was refused.

use core::error::Error;
use core::fmt;

use crate::HELD;

/// Why a file, a placement, an output, a step, a sentence or a log was refused (RULES 8.2). A
/// refusal changes nothing.
///
/// ```
/// use gondzselu::Refusal;
///
/// assert_eq!(Refusal::InboxEmpty.number(), 33);
/// assert_eq!(Refusal::from_number(33), Some(Refusal::InboxEmpty));
/// assert_eq!(Refusal::InboxEmpty.to_string(), "the card has nothing to deliver");
/// ```
#[derive(Clone, Copy, Debug, PartialEq, Eq, Hash)]
pub enum Refusal {
    /// 1: the file has fewer than 5 bytes, or fewer than its sizes ask for.
    FileTooShort,
    /// 2: the file has more bytes than its sizes ask for.
    FileTooLong,
    /// 3: a size is out of range; also copies and primaries, codes and arguments, or the lists of
    /// a log, of unequal length, and a step for [`Steps`](crate::Steps) that are full.
    SizeOutOfRange,
    /// 4: a register has no copy, a copy or a home is on an absent card, or a primary has no
    /// copy.
    Misplaced,
    /// 5: the output is shorter than the answer, the run file or the sentence.
    OutputTooShort,
    /// 6: the state is ill sized, or the step would make it so. Never from a store that only
    /// this crate has written since its start.
    IllSized,
    /// 10: the code is not 1 to 10.
    UnknownCode,
    /// 11: a byte of the argument that the code does not name is not zero.
    UnnamedByte,
    /// 12: the task is absent.
    AbsentTask,
    /// 13: the register is absent.
    AbsentRegister,
    /// 14: the card is absent; of a log, a card number is above 7.
    AbsentCard,
    /// 15: the function is not 1 to 5.
    UnknownFunction,
    /// 20: a request, and the task is not quiet.
    NotQuiet,
    /// 21: the task does not ask what the step needs, or is not done when it is to report.
    WrongCondition,
    /// 22: the copies do not lie as the step needs.
    CopiesLieOtherwise,
    /// 23: [`MAX_REQUESTS`](crate::MAX_REQUESTS) requests were taken before.
    NoRequestLeft,
    /// 30: dispatch, and the card's outbox is empty.
    OutboxEmpty,
    /// 31: take broadcast, and the card has taken all.
    NoBroadcast,
    /// 32: take single, and nothing of the task is in flight.
    NothingInFlight,
    /// 33: deliver, and the card's inbox is empty.
    InboxEmpty,
    /// 34: dispatch of a broadcast, and some card is already [`MAX_BEHIND`](crate::MAX_BEHIND) behind.
    TooFarBehind,
    /// 35: take broadcast, and the card's inbox already has 32 undelivered broadcasts.
    TooManyUndelivered,
    /// 36: a sentence, and the number is no refusal of a step.
    NoPhrase,
    /// Any other number but 0 and [`HELD`]. The library answers none, with one exception:
    /// [`Store::advance`](crate::Store::advance) on an ill-sized store, where the answer means
    /// nothing. No number of the variants above is ever given in this one.
    Unknown(u8),
}

use Refusal::*;

impl Refusal {
    /// All that RULES 8.2 lists, by rising number.
    pub const ALL: [Refusal; 23] = [
        FileTooShort,
        FileTooLong,
        SizeOutOfRange,
        Misplaced,
        OutputTooShort,
        IllSized,
        UnknownCode,
        UnnamedByte,
        AbsentTask,
        AbsentRegister,
        AbsentCard,
        UnknownFunction,
        NotQuiet,
        WrongCondition,
        CopiesLieOtherwise,
        NoRequestLeft,
        OutboxEmpty,
        NoBroadcast,
        NothingInFlight,
        InboxEmpty,
        TooFarBehind,
        TooManyUndelivered,
        NoPhrase,
    ];

    /// The number, as in an answer file.
    pub const fn number(self) -> u8 {
        match self {
            FileTooShort => 1,
            FileTooLong => 2,
            SizeOutOfRange => 3,
            Misplaced => 4,
            OutputTooShort => 5,
            IllSized => 6,
            UnknownCode => 10,
            UnnamedByte => 11,
            AbsentTask => 12,
            AbsentRegister => 13,
            AbsentCard => 14,
            UnknownFunction => 15,
            NotQuiet => 20,
            WrongCondition => 21,
            CopiesLieOtherwise => 22,
            NoRequestLeft => 23,
            OutboxEmpty => 30,
            NoBroadcast => 31,
            NothingInFlight => 32,
            InboxEmpty => 33,
            TooFarBehind => 34,
            TooManyUndelivered => 35,
            NoPhrase => 36,
            Unknown(number) => number,
        }
    }

    /// What a result says: none for 0 and [`HELD`], which are no refusals. A number that RULES does
    /// not list is kept as [`Refusal::Unknown`].
    pub const fn from_number(number: u8) -> Option<Refusal> {
        Some(match number {
            0 | HELD => return None,
            1 => FileTooShort,
            2 => FileTooLong,
            3 => SizeOutOfRange,
            4 => Misplaced,
            5 => OutputTooShort,
            6 => IllSized,
            10 => UnknownCode,
            11 => UnnamedByte,
            12 => AbsentTask,
            13 => AbsentRegister,
            14 => AbsentCard,
            15 => UnknownFunction,
            20 => NotQuiet,
            21 => WrongCondition,
            22 => CopiesLieOtherwise,
            23 => NoRequestLeft,
            30 => OutboxEmpty,
            31 => NoBroadcast,
            32 => NothingInFlight,
            33 => InboxEmpty,
            34 => TooFarBehind,
            35 => TooManyUndelivered,
            36 => NoPhrase,
            _ => Unknown(number),
        })
    }
}

/// A short phrase, no two alike. Those of the refusals of a step, 6 to 35, are the phrases of
/// [`sentence`](crate::sentence()) (RULES 14.3).
impl fmt::Display for Refusal {
    fn fmt(&self, f: &mut fmt::Formatter<'_>) -> fmt::Result {
        f.pad(match self {
            FileTooShort => "the file is too short for its sizes",
            FileTooLong => "the file is too long for its sizes",
            SizeOutOfRange => "a size is out of range",
            Misplaced => "a copy, a home or a primary is misplaced",
            OutputTooShort => "the output is too short",
            IllSized => "the store was changed from outside",
            UnknownCode => "there is no such step",
            UnnamedByte => "a byte that must be zero is not",
            AbsentTask => "there is no such task",
            AbsentRegister => "there is no such register",
            AbsentCard => "there is no such card",
            UnknownFunction => "there is no such function",
            NotQuiet => "the task has an open request",
            WrongCondition => "the task is not ready for this step",
            CopiesLieOtherwise => "the copies do not allow this step",
            NoRequestLeft => "no requests are left",
            OutboxEmpty => "the card has nothing to send",
            NoBroadcast => "the card has taken every broadcast",
            NothingInFlight => "the task has nothing on the way",
            InboxEmpty => "the card has nothing to deliver",
            TooFarBehind => "a card is too many broadcasts behind",
            TooManyUndelivered => "the card must deliver broadcasts first",
            NoPhrase => "the number has no phrase",
            Unknown(number) => return write!(f, "no refusal of this store: {number}"),
        })
    }
}

impl Error for Refusal {}

/// Whether a call was done, from the number that it gave.
pub(crate) const fn done(result: u8) -> Result<(), Refusal> {
    match Refusal::from_number(result) {
        None => Ok(()),
        Some(refusal) => Err(refusal),
    }
}

#[cfg(test)]
mod tests {
    extern crate std;

    use super::Refusal;
    use std::collections::BTreeSet;
    use std::string::{String, ToString};

    #[test]
    fn the_numbers_are_those_of_the_rules() {
        let numbers = Refusal::ALL.map(Refusal::number);
        let rules = [
            1, 2, 3, 4, 5, 6, 10, 11, 12, 13, 14, 15, 20, 21, 22, 23, 30, 31, 32, 33, 34, 35, 36,
        ];
        assert_eq!(numbers, rules);
    }

    #[test]
    fn no_number_is_lost() {
        for taken in [0, 100] {
            assert_eq!(Refusal::from_number(taken), None);
        }
        for number in (1..=255).filter(|&number| number != 100) {
            let refusal = Refusal::from_number(number).expect("not taken");
            assert_eq!(refusal.number(), number);
            let listed = Refusal::ALL.contains(&refusal);
            assert_eq!(refusal == Refusal::Unknown(number), !listed);
        }
    }

    #[test]
    fn no_two_phrases_are_alike() {
        let numbers = (1..=255).filter_map(Refusal::from_number);
        let phrases: BTreeSet<String> = numbers.map(|refusal| refusal.to_string()).collect();
        assert_eq!(phrases.len(), 254);
        assert!(phrases.iter().all(|phrase| phrase.len() <= 45));
    }
}
