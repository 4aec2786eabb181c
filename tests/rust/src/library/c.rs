//! The library's functions as C calls them: the value of a refused step too, which the crate
//! leaves out, and numbers of cards, tasks and registers of 32 bits.

use gondzselu::{Store, Tally};

use crate::model::load::Load;
use crate::model::write::Tables;

extern "C" {
    fn gondzselu_version() -> u32;
    fn gondzselu_start(
        registers: *mut u32,
        channel: *mut u32,
        cards: u32,
        homes: *const u8,
        homes_length: usize,
        copies: *const u8,
        copies_length: usize,
        primaries: *const u8,
        primaries_length: usize,
    ) -> u8;
    fn gondzselu_step(r: *mut u32, c: *mut u32, code: u8, at: *const u8, value: *mut u32) -> u8;
    fn gondzselu_advance(r: *mut u32, c: *mut u32, code: u8, at: *const u8, value: *mut u32) -> u8;
    fn gondzselu_step_counted(
        registers: *mut u32,
        channel: *mut u32,
        code: u8,
        argument: *const u8,
        value: *mut u32,
        tally: *mut Tally,
    ) -> u8;
    fn gondzselu_copy(registers: *const u32, channel: *const u32, card: u32, register: u32) -> u32;
    fn gondzselu_copies(registers: *const u32, channel: *const u32, register: u32, at: *mut u32);
    fn gondzselu_task(registers: *const u32, channel: *const u32, task: u32) -> u32;
    fn gondzselu_task_value(registers: *const u32, channel: *const u32, task: u32) -> u32;
    fn gondzselu_broadcasts_taken(channel: *const u32, card: u32) -> u32;
    fn gondzselu_write(
        cards: u32,
        homes: *const u8,
        homes_length: usize,
        copies: *const u8,
        copies_length: usize,
        primaries: *const u8,
        primaries_length: usize,
        codes: *const u8,
        codes_length: usize,
        arguments: *const u8,
        arguments_length: usize,
        output: *mut u8,
        output_length: usize,
        length: *mut u32,
    ) -> u8;
    fn gondzselu_load(
        seed: u32,
        cards: u32,
        homes: *const u8,
        homes_length: usize,
        copies: *const u8,
        copies_length: usize,
        primaries: *const u8,
        primaries_length: usize,
        steps: u32,
        output: *mut u8,
        output_length: usize,
        length: *mut u32,
    ) -> u8;
    fn gondzselu_total(
        cards: *const u8,
        cards_length: usize,
        operands: *const u32,
        operands_length: usize,
        total: *mut u32,
    ) -> u8;
    fn gondzselu_total_by_card(
        cards: *const u8,
        cards_length: usize,
        operands: *const u32,
        operands_length: usize,
        total: *mut u32,
    ) -> u8;
}

/// What lies where a value is written: it is no answer.
const BEFORE: u32 = 0xA5A5_A5A5;

pub fn version() -> u32 {
    unsafe { gondzselu_version() }
}

/// Both memories, to write. The crate has checked their sizes.
fn lent(store: &mut Store) -> (*mut u32, *mut u32) {
    let (registers, channel) = store.words_mut();
    (registers.as_mut_ptr(), channel.as_mut_ptr())
}

fn read(store: &Store) -> (*const u32, *const u32) {
    let (registers, channel) = store.words();
    (registers.as_ptr(), channel.as_ptr())
}

pub fn start(store: &mut Store, cards: u32, homes: &[u8], copies: &[u8], primaries: &[u8]) -> u8 {
    let (registers, channel) = lent(store);
    unsafe {
        gondzselu_start(
            registers,
            channel,
            cards,
            homes.as_ptr(),
            homes.len(),
            copies.as_ptr(),
            copies.len(),
            primaries.as_ptr(),
            primaries.len(),
        )
    }
}

pub fn step(store: &mut Store, code: u8, argument: [u8; 8]) -> (u8, u32) {
    let (registers, channel) = lent(store);
    let mut value = BEFORE;
    let result = unsafe { gondzselu_step(registers, channel, code, argument.as_ptr(), &mut value) };
    (result, value)
}

pub fn advance(store: &mut Store, code: u8, argument: [u8; 8]) -> (u8, u32) {
    let (registers, channel) = lent(store);
    let mut value = BEFORE;
    let at = argument.as_ptr();
    let result = unsafe { gondzselu_advance(registers, channel, code, at, &mut value) };
    (result, value)
}

pub fn step_counted(
    store: &mut Store,
    code: u8,
    argument: [u8; 8],
    tally: &mut Tally,
) -> (u8, u32) {
    let (registers, channel) = lent(store);
    let mut value = BEFORE;
    let at = argument.as_ptr();
    let result = unsafe { gondzselu_step_counted(registers, channel, code, at, &mut value, tally) };
    (result, value)
}

pub fn copy(store: &Store, card: u32, register: u32) -> u32 {
    let (registers, channel) = read(store);
    unsafe { gondzselu_copy(registers, channel, card, register) }
}

/// By card; nothing where a word before or after the eight is written.
pub fn copies(store: &Store, register: u32) -> Option<[u32; 8]> {
    let (registers, channel) = read(store);
    let mut page = [[BEFORE; 8]; 3];
    let at = page.as_mut_ptr().cast::<u32>();
    unsafe { gondzselu_copies(registers, channel, register, at.add(8)) };
    let [before, copies, after] = page;
    (before == [BEFORE; 8] && after == before).then_some(copies)
}

/// The condition's number, and its value.
pub fn task(store: &Store, task: u32) -> (u32, u32) {
    let (registers, channel) = read(store);
    unsafe {
        (
            gondzselu_task(registers, channel, task),
            gondzselu_task_value(registers, channel, task),
        )
    }
}

pub fn broadcasts_taken(store: &Store, card: u32) -> u32 {
    unsafe { gondzselu_broadcasts_taken(read(store).1, card) }
}

/// The refusal, and the file's length.
pub fn write(tables: &Tables, output: &mut [u8]) -> (u8, u32) {
    let Tables {
        cards,
        homes,
        copies,
        primaries,
        codes,
        arguments,
    } = tables;
    let mut length = BEFORE;
    let refusal = unsafe {
        gondzselu_write(
            *cards,
            homes.as_ptr(),
            homes.len(),
            copies.as_ptr(),
            copies.len(),
            primaries.as_ptr(),
            primaries.len(),
            codes.as_ptr(),
            codes.len(),
            arguments.as_ptr(),
            arguments.len(),
            output.as_mut_ptr(),
            output.len(),
            &mut length,
        )
    };
    (refusal, length)
}

/// The refusal, and the file's length.
pub fn load(load: &Load, output: &mut [u8]) -> (u8, u32) {
    let mut length = BEFORE;
    let refusal = unsafe {
        gondzselu_load(
            load.seed,
            load.cards,
            load.homes.as_ptr(),
            load.homes.len(),
            load.copies.as_ptr(),
            load.copies.len(),
            load.primaries.as_ptr(),
            load.primaries.len(),
            load.steps,
            output.as_mut_ptr(),
            output.len(),
            &mut length,
        )
    };
    (refusal, length)
}

/// The refusal; the total is written over what is there.
pub fn total(cards: &[u8], operands: &[u32], total: &mut u32) -> u8 {
    let (at, length) = (operands.as_ptr(), operands.len());
    unsafe { gondzselu_total(cards.as_ptr(), cards.len(), at, length, total) }
}

/// The same, card by card.
pub fn total_by_card(cards: &[u8], operands: &[u32], total: &mut u32) -> u8 {
    let (at, length) = (operands.as_ptr(), operands.len());
    unsafe { gondzselu_total_by_card(cards.as_ptr(), cards.len(), at, length, total) }
}
