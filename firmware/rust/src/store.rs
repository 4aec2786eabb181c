//! A store, step by step.

use core::fmt;

use crate::raw::Memories;
use crate::refusal::done;
use crate::{Condition, Refusal, Step, Taken, Tally, CHANNEL_WORDS, MAX_CARDS, REGISTERS_WORDS};

/// Where tasks live and copies lie (RULES 10.1). Tasks and registers are as many as `homes`
/// and `copies` are long.
#[derive(Clone, Copy, Debug, PartialEq, Eq)]
pub struct Placement<'a> {
    /// How many cards, 1 to 8.
    pub cards: u8,
    /// The home card of each task.
    pub homes: &'a [u8],
    /// The holders of each register: bit i is set where card i holds a copy.
    pub copies: &'a [u8],
    /// The primary card of each register, one of its holders.
    pub primaries: &'a [u8],
}

/// A store in its two memories, 7,508 bytes.
///
/// `step`, `step_counted` and `advance` take a [`Step`]; the forms in `_bytes` take a code and
/// an argument as they lie in a run file, right or wrong. Each gives what a taken step gives
/// ([`Taken`]), or the refusal; a refused step changes nothing.
///
/// Two stores are equal if all their words are. Stores that show the same may still differ in
/// words that mean nothing, such as old places of a queue.
///
/// ```
/// use gondzselu::{Condition, Placement, Refusal, Step, Store};
///
/// let place = Placement { cards: 1, homes: &[0], copies: &[1], primaries: &[0] };
/// let mut store = Store::start(place)?;
/// store.step(Step::RequestRead { task: 0, register: 0 })?;
/// assert_eq!(store.task(0), Condition::AskingRead);
/// assert_eq!(store.step(Step::Report { task: 0 }), Err(Refusal::WrongCondition));
/// store.step(Step::Perform { task: 0 })?;
/// assert_eq!(store.step(Step::Report { task: 0 })?.value, 0);
/// # Ok::<(), Refusal>(())
/// ```
#[derive(Clone, PartialEq, Eq)]
pub struct Store {
    memories: Memories,
}

impl Store {
    /// A store that was never started: every word is 0, and every step is refused with 6 until
    /// a restart. For memory that is there before the program runs, so that no store passes
    /// over the stack.
    ///
    /// ```
    /// use gondzselu::{Placement, Refusal, Step, Store};
    /// use std::sync::Mutex;
    ///
    /// static STORE: Mutex<Store> = Mutex::new(Store::unstarted());
    ///
    /// let mut store = STORE.lock().unwrap();
    /// assert_eq!(store.step(Step::Deliver { card: 0 }), Err(Refusal::IllSized));
    /// store.restart(Placement { cards: 1, homes: &[0], copies: &[1], primaries: &[0] })?;
    /// assert_eq!(store.step(Step::Deliver { card: 0 }), Err(Refusal::InboxEmpty));
    /// # Ok::<(), Refusal>(())
    /// ```
    pub const fn unstarted() -> Store {
        let memories = Memories::zero();
        Store { memories }
    }

    /// Starts a store from a placement (RULES chapter 10), or gives the refusal, 3 or 4.
    ///
    /// ```
    /// use gondzselu::{Placement, Refusal, Store};
    ///
    /// let place = Placement { cards: 2, homes: &[0, 1], copies: &[0b11], primaries: &[1] };
    /// assert!(Store::start(place).is_ok());
    /// let none = Placement { homes: &[], ..place };
    /// assert_eq!(Store::start(none), Err(Refusal::SizeOutOfRange));
    /// let absent = Placement { homes: &[2], ..place };
    /// assert_eq!(Store::start(absent), Err(Refusal::Misplaced));
    /// ```
    ///
    /// # Panics
    ///
    /// If the library linked is not the one that this crate is for
    /// ([`check_library`](crate::check_library), called before, gives an error instead).
    pub fn start(placement: Placement<'_>) -> Result<Store, Refusal> {
        let mut store = Store::unstarted();
        store.restart(placement)?;
        Ok(store)
    }

    /// The same from the placement in a run file, or the refusal, 1 to 4. The whole file is
    /// judged, and none of its steps is taken.
    pub fn start_from_file(file: &[u8]) -> Result<Store, Refusal> {
        let mut store = Store::unstarted();
        store.restart_from_file(file)?;
        Ok(store)
    }

    /// Starts again in the same memories, whatever was there. After a refusal, 3 or 4, the
    /// store is as it was.
    pub fn restart(&mut self, placement: Placement<'_>) -> Result<(), Refusal> {
        done(self.memories.start(placement))
    }

    /// The same from the placement in a run file. After a refusal, 1 to 4, the store is as it
    /// was.
    pub fn restart_from_file(&mut self, file: &[u8]) -> Result<(), Refusal> {
        done(self.memories.start_file(file))
    }

    /// Tries a step: its value, which is 0 unless it is a report, of a read or of an update, and
    /// whether its message is held, which only that of step 8 may be; or the refusal, 6 to 35. The
    /// whole state is checked first; an ill-sized one is refused with 6. What a report will be of,
    /// [`task`](Store::task) tells before it.
    #[inline]
    pub fn step(&mut self, step: Step) -> Result<Taken, Refusal> {
        self.step_bytes(step.code(), step.argument())
    }

    /// [`step`](Store::step) of a code and its argument, as in a run file.
    ///
    /// ```
    /// # use gondzselu::{Placement, Refusal, Store};
    /// # let place = Placement { cards: 1, homes: &[0], copies: &[1], primaries: &[0] };
    /// # let mut store = Store::start(place)?;
    /// assert_eq!(store.step_bytes(1, [0; 8])?.result(), 0);
    /// assert_eq!(store.step_bytes(3, [0, 0, 0, 0, 0, 0, 0, 1]), Err(Refusal::UnnamedByte));
    /// assert_eq!(store.step_bytes(99, [0; 8]), Err(Refusal::UnknownCode));
    /// # Ok::<(), Refusal>(())
    /// ```
    #[inline]
    pub fn step_bytes(&mut self, code: u8, argument: [u8; 8]) -> Result<Taken, Refusal> {
        Taken::from_library(self.memories.step(code, argument))
    }

    /// [`step`](Store::step), with its result counted in a tally that is lent: a held message is
    /// taken, and every refusal counts, 6 too.
    ///
    /// ```
    /// # use gondzselu::{Placement, Refusal, Step, Store};
    /// # let place = Placement { cards: 1, homes: &[0], copies: &[1], primaries: &[0] };
    /// # let mut store = Store::start(place)?;
    /// use gondzselu::Tally;
    ///
    /// let mut tally = Tally::default();
    /// let request = Step::RequestRead { task: 0, register: 0 };
    /// assert!(store.step_counted(request, &mut tally).is_ok());
    /// assert_eq!(store.step_counted(request, &mut tally), Err(Refusal::NotQuiet));
    /// assert_eq!(tally, Tally { taken: 1, refused: 1 });
    /// # Ok::<(), Refusal>(())
    /// ```
    #[inline]
    pub fn step_counted(&mut self, step: Step, tally: &mut Tally) -> Result<Taken, Refusal> {
        self.step_bytes_counted(step.code(), step.argument(), tally)
    }

    /// [`step_counted`](Store::step_counted) of a code and its argument.
    #[inline]
    pub fn step_bytes_counted(
        &mut self,
        code: u8,
        argument: [u8; 8],
        tally: &mut Tally,
    ) -> Result<Taken, Refusal> {
        Taken::from_library(self.memories.step_counted(code, argument, tally))
    }

    /// The step without the check of the state, which takes most of the time of
    /// [`step`](Store::step).
    ///
    /// On a well-sized store it does and answers the same as `step`. A store that only steps
    /// have changed since its start is well sized; so use this there. After
    /// [`from_words`](Store::from_words) or [`words_mut`](Store::words_mut) use `step` first:
    /// if that is not refused with 6, the store is well sized.
    ///
    /// It is safe on any words: it ends, and reads and writes nothing outside the store. But
    /// on an ill-sized store its answer, and what it leaves there, mean nothing.
    ///
    /// ```
    /// # use gondzselu::{Placement, Refusal, Step, Store};
    /// # let place = Placement { cards: 1, homes: &[0], copies: &[1], primaries: &[0] };
    /// let mut store = Store::start(place)?;
    /// let mut other = store.clone();
    /// let step = Step::RequestRead { task: 0, register: 0 };
    /// assert_eq!(store.advance(step), other.step(step));
    /// assert!(store == other);
    /// # Ok::<(), Refusal>(())
    /// ```
    #[inline]
    pub fn advance(&mut self, step: Step) -> Result<Taken, Refusal> {
        self.advance_bytes(step.code(), step.argument())
    }

    /// [`advance`](Store::advance) by a code and its argument.
    #[inline]
    pub fn advance_bytes(&mut self, code: u8, argument: [u8; 8]) -> Result<Taken, Refusal> {
        Taken::from_library(self.memories.advance(code, argument))
    }

    /// The value of a card's copy of a register; 0 for an absent card or register, and, in a
    /// run, for a card without a copy: the placement says which cards hold one, the store does
    /// not.
    #[inline]
    pub fn copy(&self, card: u8, register: u8) -> u32 {
        self.memories.copy(card, register)
    }

    /// The copies of a register on all cards at once, by card: the value of the card's copy; 0 for
    /// an absent card, for a card without a copy, on any words, and for every card if the register
    /// is absent. They lie side by side (RULES 11.8).
    ///
    /// ```
    /// # use gondzselu::{Function, Placement, Refusal, Step, Store};
    /// // Register 0 lies on cards 1 and 2; task 0 is on card 1.
    /// let place = Placement { cards: 3, homes: &[1], copies: &[0b110], primaries: &[1] };
    /// let mut store = Store::start(place)?;
    /// store.step(Step::RequestUpdate { task: 0, register: 0, function: Function::Set, operand: 7 })?;
    /// store.step(Step::SendUpdate { task: 0 })?;
    /// store.step(Step::Dispatch { card: 1 })?;
    /// store.step(Step::TakeBroadcast { card: 1 })?;
    /// store.step(Step::Deliver { card: 1 })?;
    /// assert_eq!(store.copies(0), [0, 7, 0, 0, 0, 0, 0, 0]); // card 2 has yet to take it
    /// assert_eq!(store.copies(1), [0; 8]);
    /// # Ok::<(), Refusal>(())
    /// ```
    #[inline]
    pub fn copies(&self, register: u8) -> [u32; MAX_CARDS] {
        self.memories.copies(register)
    }

    /// What a task is doing; an absent task is quiet.
    pub fn task(&self, task: u8) -> Condition {
        Condition::from_library(self.memories.task(task), self.memories.task_value(task))
    }

    /// Broadcasts made.
    pub fn broadcasts(&self) -> u32 {
        self.memories.broadcasts()
    }

    /// Broadcasts that a card has taken; 0 for an absent card.
    pub fn broadcasts_taken(&self, card: u8) -> u32 {
        self.memories.broadcasts_taken(card)
    }

    /// Requests taken.
    pub fn requests(&self) -> u32 {
        self.memories.requests()
    }

    /// A store of words that were kept, or of any others: every word is safe. A step with code
    /// 0 changes nothing and tells of what kind they are: it is refused with 10 on a well-sized
    /// store, with 6 on any other.
    ///
    /// ```
    /// # use gondzselu::{Placement, Refusal, Step, Store, CHANNEL_WORDS};
    /// # let place = Placement { cards: 1, homes: &[0], copies: &[1], primaries: &[0] };
    /// # let store = Store::start(place)?;
    /// let (registers, channel) = store.words();
    /// let mut again = Store::from_words(registers, channel);
    /// assert!(again == store);
    /// assert_eq!(again.step_bytes(0, [0; 8]), Err(Refusal::UnknownCode));
    ///
    /// let mut wrong = Store::from_words(registers, &[9; CHANNEL_WORDS]);
    /// assert_eq!(wrong.step_bytes(0, [0; 8]), Err(Refusal::IllSized));
    /// # Ok::<(), Refusal>(())
    /// ```
    pub fn from_words(registers: &[u32; REGISTERS_WORDS], channel: &[u32; CHANNEL_WORDS]) -> Store {
        let mut store = Store::unstarted();
        let words = store.words_mut();
        *words.0 = *registers;
        *words.1 = *channel;
        store
    }

    /// The words of both memories, of the registers and of the channel, to keep or to send. What
    /// lies where is said in RULES 11.12, and was otherwise before 0.11.0.
    pub fn words(&self) -> (&[u32; REGISTERS_WORDS], &[u32; CHANNEL_WORDS]) {
        self.memories.words()
    }

    /// The same, to write. What is promised of a run (RULES chapter 12) is not promised of a
    /// store that was written here.
    pub fn words_mut(&mut self) -> (&mut [u32; REGISTERS_WORDS], &mut [u32; CHANNEL_WORDS]) {
        self.memories.words_mut()
    }
}

/// What is counted in it; the words are too many to show.
impl fmt::Debug for Store {
    fn fmt(&self, f: &mut fmt::Formatter<'_>) -> fmt::Result {
        f.debug_struct("Store")
            .field("requests", &self.requests())
            .field("broadcasts", &self.broadcasts())
            .finish_non_exhaustive()
    }
}

const _: () = assert!(core::mem::size_of::<Store>() == 7_508);

const _: () = {
    const fn may_cross_threads<T: Send + Sync>() {}
    may_cross_threads::<Store>();
};
