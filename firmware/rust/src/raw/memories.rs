//! The calls that take a store's memories.

use super::*;
use crate::{library, CHANNEL_WORDS, MAX_CARDS, REGISTERS_WORDS};

/// The two memories of a store. Whatever their words are, every method is safe.
#[derive(Clone, PartialEq, Eq)]
pub struct Memories {
    registers: [u32; REGISTERS_WORDS],
    channel: [u32; CHANNEL_WORDS],
}

impl Memories {
    pub const fn zero() -> Memories {
        Memories {
            registers: [0; REGISTERS_WORDS],
            channel: [0; CHANNEL_WORDS],
        }
    }

    pub fn words(&self) -> (&[u32; REGISTERS_WORDS], &[u32; CHANNEL_WORDS]) {
        (&self.registers, &self.channel)
    }

    pub fn words_mut(&mut self) -> (&mut [u32; REGISTERS_WORDS], &mut [u32; CHANNEL_WORDS]) {
        library::require();
        (&mut self.registers, &mut self.channel)
    }

    /// The library is checked before memories are first lent: `zero` alone makes some without
    /// a check, and all else that writes a word checks first. So where this word is not 0, the
    /// check was made. Every store of `zero` that is started has it made here.
    #[inline]
    fn require(&self) {
        if self.channel[0] == 0 {
            library::require();
        }
    }

    #[inline]
    fn lend(&self) -> (*const u32, *const u32) {
        self.require();
        (self.registers.as_ptr(), self.channel.as_ptr())
    }

    #[inline]
    fn lend_mut(&mut self) -> (*mut u32, *mut u32) {
        self.require();
        (self.registers.as_mut_ptr(), self.channel.as_mut_ptr())
    }

    pub fn start(&mut self, placement: Placement<'_>) -> u8 {
        let (registers, channel) = self.lend_mut();
        let Placement {
            cards,
            homes,
            copies,
            primaries,
        } = placement;
        // SAFETY: both memories, and three slices with their lengths.
        unsafe {
            gondzselu_start(
                registers,
                channel,
                cards.into(),
                homes.as_ptr(),
                homes.len(),
                copies.as_ptr(),
                copies.len(),
                primaries.as_ptr(),
                primaries.len(),
            )
        }
    }

    pub fn start_file(&mut self, file: &[u8]) -> u8 {
        let (registers, channel) = self.lend_mut();
        // SAFETY: both memories, and a slice with its length.
        unsafe { gondzselu_start_file(registers, channel, file.as_ptr(), file.len()) }
    }

    /// The result and the value.
    #[inline]
    pub fn step(&mut self, code: u8, argument: [u8; 8]) -> (u8, u32) {
        let (registers, channel) = self.lend_mut();
        let mut value = 0;
        // SAFETY: both memories, eight bytes, and a place for the value.
        let result =
            unsafe { gondzselu_step(registers, channel, code, argument.as_ptr(), &mut value) };
        (result, value)
    }

    #[inline]
    pub fn advance(&mut self, code: u8, argument: [u8; 8]) -> (u8, u32) {
        let (registers, channel) = self.lend_mut();
        let mut value = 0;
        // SAFETY: as `step`; it asks no more of the words.
        let result =
            unsafe { gondzselu_advance(registers, channel, code, argument.as_ptr(), &mut value) };
        (result, value)
    }

    #[inline]
    pub fn step_counted(&mut self, code: u8, argument: [u8; 8], tally: &mut Tally) -> (u8, u32) {
        let (registers, channel) = self.lend_mut();
        let (at, mut value) = (argument.as_ptr(), 0);
        // SAFETY: as `step`, and a tally, which has the layout of the library's.
        let result =
            unsafe { gondzselu_step_counted(registers, channel, code, at, &mut value, tally) };
        (result, value)
    }

    #[inline]
    pub fn copy(&self, card: u8, register: u8) -> u32 {
        let (registers, channel) = self.lend();
        // SAFETY: both memories, which are only read.
        unsafe { gondzselu_copy(registers, channel, card.into(), register.into()) }
    }

    #[inline]
    pub fn copies(&self, register: u8) -> [u32; MAX_CARDS] {
        let (registers, channel) = self.lend();
        let mut copies = [0; MAX_CARDS];
        // SAFETY: as `copy`, and a place for a word of each card.
        unsafe { gondzselu_copies(registers, channel, register.into(), copies.as_mut_ptr()) };
        copies
    }

    pub fn task(&self, task: u8) -> u32 {
        let (registers, channel) = self.lend();
        // SAFETY: as `copy`.
        unsafe { gondzselu_task(registers, channel, task.into()) }
    }

    pub fn task_value(&self, task: u8) -> u32 {
        let (registers, channel) = self.lend();
        // SAFETY: as `copy`.
        unsafe { gondzselu_task_value(registers, channel, task.into()) }
    }

    pub fn broadcasts(&self) -> u32 {
        // SAFETY: as `copy`.
        unsafe { gondzselu_broadcasts(self.lend().1) }
    }

    pub fn broadcasts_taken(&self, card: u8) -> u32 {
        // SAFETY: as `copy`.
        unsafe { gondzselu_broadcasts_taken(self.lend().1, card.into()) }
    }

    pub fn requests(&self) -> u32 {
        // SAFETY: as `copy`.
        unsafe { gondzselu_requests(self.lend().0) }
    }
}
