//! K9 in a program without `std`, without an allocator and with its store in a `static`, as
//! firmware has it. It ends with 0, or with the number of the first thing that is not as RULES
//! says. Were `std` in the crate or below it, this would have two panic handlers and not build;
//! were `alloc`, it would have no allocator.

#![no_std]
#![no_main]

use core::panic::PanicInfo;
use core::ptr::addr_of_mut;

use gondzselu::{
    load, sentence, total, total_by_card, write, Condition, Function, Placement, Refusal, Step,
    Steps, Store, Taken, Tally,
};

#[link(name = "c")]
extern "C" {
    fn abort() -> !;
}

#[panic_handler]
fn panic(_: &PanicInfo<'_>) -> ! {
    // SAFETY: it ends the program.
    unsafe { abort() }
}

/// The `core` of this target is built to unwind and asks for this name; here nothing unwinds.
#[no_mangle]
extern "C" fn rust_eh_personality() {}

static mut STORE: Store = Store::unstarted();

/// Three cards, a task on each. Register 0 everywhere, register 1 on card 1.
const PLACEMENT: Placement<'_> = Placement {
    cards: 3,
    homes: &[0, 1, 2],
    copies: &[7, 2],
    primaries: &[0, 1],
};

const fn set(task: u8, register: u8, operand: u32) -> Step {
    Step::RequestUpdate {
        task,
        register,
        function: Function::Set,
        operand,
    }
}

const READ: Step = Step::RequestRead {
    task: 0,
    register: 0,
};

const fn taken(value: u32, held: bool) -> Result<Taken, Refusal> {
    Ok(Taken { value, held })
}

const TAKEN: Result<Taken, Refusal> = taken(0, false);

const K9: [(Step, Result<Taken, Refusal>); 16] = [
    (set(2, 0, 7), TAKEN),
    (Step::SendUpdate { task: 2 }, TAKEN),
    (Step::Dispatch { card: 2 }, TAKEN),
    (Step::TakeBroadcast { card: 0 }, TAKEN),
    (Step::Deliver { card: 0 }, TAKEN),
    (READ, TAKEN),
    (Step::Perform { task: 0 }, TAKEN),
    (Step::Report { task: 0 }, taken(7, false)),
    (set(0, 1, 9), TAKEN),
    (Step::SendUpdate { task: 0 }, TAKEN),
    (Step::Dispatch { card: 0 }, TAKEN),
    (Step::TakeSingle { task: 0 }, taken(0, true)),
    (Step::Deliver { card: 1 }, Err(Refusal::InboxEmpty)),
    (Step::TakeBroadcast { card: 1 }, TAKEN),
    (Step::Deliver { card: 1 }, TAKEN),
    (Step::Deliver { card: 1 }, TAKEN),
];

fn play(store: &mut Store) -> i32 {
    if store.restart(PLACEMENT).is_err() {
        return 1;
    }
    let mut tally = Tally::default();
    for (step, answer) in K9 {
        if store.step_counted(step, &mut tally) != answer {
            return 2;
        }
    }
    if (tally.taken, tally.refused) != (15, 1) {
        return 3;
    }
    let copies = [0, 1, 2].map(|card| [store.copy(card, 0), store.copy(card, 1)]);
    if copies != [[7, 0], [7, 9], [0, 0]] {
        return 4;
    }
    let conditions = [0, 1, 2].map(|task| store.task(task));
    if conditions != [Condition::Waiting, Condition::Quiet, Condition::Waiting] {
        return 5;
    }
    let words = sentence(12, Refusal::InboxEmpty);
    if words.as_deref() != Some("step 12: the card has nothing to deliver") {
        return 6;
    }
    let (mut steps, mut file) = (Steps::<16>::new(), [0; 156]);
    let full = K9.iter().any(|&(step, _)| steps.push(step).is_err());
    if full || write(PLACEMENT, &steps, &mut file) != Ok(156) {
        return 7;
    }
    if file != *include_bytes!("../../../../examples/k9.run") {
        return 8;
    }
    // RULES 16.9.
    let (cards, operands) = ([2, 0, 2], [4_294_967_295, 3, 5]);
    if [total, total_by_card].map(|call| call(&cards, &operands)) != [Ok(7); 2] {
        return 9;
    }
    // RULES 17.8.
    let two = Placement {
        cards: 2,
        homes: &[0, 1],
        copies: &[3, 2],
        primaries: &[0, 1],
    };
    let mut drawn = [0; 38];
    if load(2, two, 3, &mut drawn) != Ok(38) {
        return 10;
    }
    if drawn[11..23] != [2, 3, 6, 0, 1, 2, 0, 0x8D, 0xB7, 0, 0, 1] {
        return 11;
    }
    0
}

#[no_mangle]
extern "C" fn main() -> i32 {
    // SAFETY: nothing else names the store, and this is called once.
    play(unsafe { &mut *addr_of_mut!(STORE) })
}
