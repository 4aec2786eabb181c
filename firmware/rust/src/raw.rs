//! The library's functions, and with `raw/memories.rs` the only `unsafe` of this crate. Nothing
//! checks these declarations against `include/gondzselu.h`, so they are few; `tests/rust` in the
//! repository compares what they give with an independent model.
//!
//! What the library asks of a caller (RULES 11.2, 11.3), and why it holds here: no pointer is
//! NULL and each is good for its length, for they come from references and slices; what is
//! written overlaps nothing else, for it comes from a `&mut`; nobody else uses it during the
//! call, for the same reason. The memories have the sizes that the library takes: that was
//! checked before a memory is first lent.

#![allow(unsafe_code)]

mod memories;

pub use memories::Memories;

use crate::{Placement, Tally};

extern "C" {
    fn gondzselu_version() -> u32;
    fn gondzselu_registers_words() -> usize;
    fn gondzselu_channel_words() -> usize;
    fn gondzselu_answer(
        file: *const u8,
        file_length: usize,
        output: *mut u8,
        output_length: usize,
    ) -> u8;
    fn gondzselu_answer_counted(
        file: *const u8,
        file_length: usize,
        output: *mut u8,
        output_length: usize,
        tally: *mut Tally,
    ) -> u8;
    fn gondzselu_start(
        registers: *mut u32,
        channel: *mut u32,
        cards: u32,
        homes: *const u8,
        homes_length: usize,
        copies: *const u8,
        copies_length: usize,
        primaries: *const u8,
        primaries_length: usize,
    ) -> u8;
    fn gondzselu_start_file(
        registers: *mut u32,
        channel: *mut u32,
        file: *const u8,
        file_length: usize,
    ) -> u8;
    fn gondzselu_step(
        registers: *mut u32,
        channel: *mut u32,
        code: u8,
        argument: *const u8,
        value: *mut u32,
    ) -> u8;
    fn gondzselu_advance(
        registers: *mut u32,
        channel: *mut u32,
        code: u8,
        argument: *const u8,
        value: *mut u32,
    ) -> u8;
    fn gondzselu_step_counted(
        registers: *mut u32,
        channel: *mut u32,
        code: u8,
        argument: *const u8,
        value: *mut u32,
        tally: *mut Tally,
    ) -> u8;
    fn gondzselu_write(
        cards: u32,
        homes: *const u8,
        homes_length: usize,
        copies: *const u8,
        copies_length: usize,
        primaries: *const u8,
        primaries_length: usize,
        codes: *const u8,
        codes_length: usize,
        arguments: *const u8,
        arguments_length: usize,
        output: *mut u8,
        output_length: usize,
        length: *mut u32,
    ) -> u8;
    fn gondzselu_load(
        seed: u32,
        cards: u32,
        homes: *const u8,
        homes_length: usize,
        copies: *const u8,
        copies_length: usize,
        primaries: *const u8,
        primaries_length: usize,
        steps: u32,
        output: *mut u8,
        output_length: usize,
        length: *mut u32,
    ) -> u8;
    fn gondzselu_sentence(
        step: u32,
        refusal: u8,
        output: *mut u8,
        output_length: usize,
        length: *mut u32,
    ) -> u8;
    fn gondzselu_total(
        cards: *const u8,
        cards_length: usize,
        operands: *const u32,
        operands_length: usize,
        total: *mut u32,
    ) -> u8;
    fn gondzselu_total_by_card(
        cards: *const u8,
        cards_length: usize,
        operands: *const u32,
        operands_length: usize,
        total: *mut u32,
    ) -> u8;
    fn gondzselu_copy(registers: *const u32, channel: *const u32, card: u32, register: u32) -> u32;
    fn gondzselu_copies(
        registers: *const u32,
        channel: *const u32,
        register: u32,
        copies: *mut u32,
    );
    fn gondzselu_task(registers: *const u32, channel: *const u32, task: u32) -> u32;
    fn gondzselu_task_value(registers: *const u32, channel: *const u32, task: u32) -> u32;
    fn gondzselu_broadcasts(channel: *const u32) -> u32;
    fn gondzselu_broadcasts_taken(channel: *const u32, card: u32) -> u32;
    fn gondzselu_requests(registers: *const u32) -> u32;
}

pub fn version() -> u32 {
    // SAFETY: it takes nothing and gives a number.
    unsafe { gondzselu_version() }
}

pub fn registers_words() -> usize {
    // SAFETY: as `version`.
    unsafe { gondzselu_registers_words() }
}

pub fn channel_words() -> usize {
    // SAFETY: as `version`.
    unsafe { gondzselu_channel_words() }
}

pub fn answer(file: &[u8], output: &mut [u8]) -> u8 {
    // SAFETY: two slices with their lengths.
    unsafe { gondzselu_answer(file.as_ptr(), file.len(), output.as_mut_ptr(), output.len()) }
}

pub fn answer_counted(file: &[u8], output: &mut [u8], tally: &mut Tally) -> u8 {
    let (at, length) = (output.as_mut_ptr(), output.len());
    // SAFETY: two slices with their lengths, and a tally, which has the layout of the library's.
    unsafe { gondzselu_answer_counted(file.as_ptr(), file.len(), at, length, tally) }
}

/// The refusal and the length.
pub fn write(p: Placement<'_>, codes: &[u8], arguments: &[u8], output: &mut [u8]) -> (u8, u32) {
    let mut length = 0;
    // SAFETY: six slices with their lengths, and a place for the file's length.
    let result = unsafe {
        gondzselu_write(
            p.cards.into(),
            p.homes.as_ptr(),
            p.homes.len(),
            p.copies.as_ptr(),
            p.copies.len(),
            p.primaries.as_ptr(),
            p.primaries.len(),
            codes.as_ptr(),
            codes.len(),
            arguments.as_ptr(),
            arguments.len(),
            output.as_mut_ptr(),
            output.len(),
            &mut length,
        )
    };
    (result, length)
}

/// The refusal and the length.
pub fn load(seed: u32, p: Placement<'_>, steps: u32, output: &mut [u8]) -> (u8, u32) {
    let mut length = 0;
    // SAFETY: four slices with their lengths, and a place for the file's length.
    let result = unsafe {
        gondzselu_load(
            seed,
            p.cards.into(),
            p.homes.as_ptr(),
            p.homes.len(),
            p.copies.as_ptr(),
            p.copies.len(),
            p.primaries.as_ptr(),
            p.primaries.len(),
            steps,
            output.as_mut_ptr(),
            output.len(),
            &mut length,
        )
    };
    (result, length)
}

/// The refusal and the length.
pub fn sentence(step: u32, refusal: u8, output: &mut [u8]) -> (u8, u32) {
    let (at, room, mut length) = (output.as_mut_ptr(), output.len(), 0);
    // SAFETY: a slice with its length, and a place for the text's length.
    let result = unsafe { gondzselu_sentence(step, refusal, at, room, &mut length) };
    (result, length)
}

/// The refusal and the total.
pub fn total(cards: &[u8], operands: &[u32]) -> (u8, u32) {
    let (at, length, mut total) = (operands.as_ptr(), operands.len(), 0);
    // SAFETY: two slices with their lengths, and a place for the total.
    let result = unsafe { gondzselu_total(cards.as_ptr(), cards.len(), at, length, &mut total) };
    (result, total)
}

/// The refusal and the total.
pub fn total_by_card(cards: &[u8], operands: &[u32]) -> (u8, u32) {
    let (at, length, mut total) = (operands.as_ptr(), operands.len(), 0);
    // SAFETY: as `total`.
    let result =
        unsafe { gondzselu_total_by_card(cards.as_ptr(), cards.len(), at, length, &mut total) };
    (result, total)
}
