//! A proved register store for firmware, behind safe functions.
//!
//! Up to 16 tasks on up to 8 cards read and update up to 32 registers of 32 bits. Each register
//! is copied to the cards that the user chose; between the cards there is one broadcast in a
//! common order, and single messages in no order. The store is moved by ten kinds of [`Step`],
//! in any order that the caller picks, and every run of it is sequentially consistent. That is
//! proved of the library that this crate links; `docs/RULES.md` in its repository says all that
//! a caller has to know, and "RULES 4.3" below is a rule there.
//!
//! # Example
//!
//! ```
//! use gondzselu::{Condition, Function, Placement, Refusal, Step, Store};
//!
//! // Two cards, a task on each. Register 0 lies on both cards; card 0 is its primary.
//! let mut store = Store::start(Placement {
//!     cards: 2,
//!     homes: &[0, 1],
//!     copies: &[0b11],
//!     primaries: &[0],
//! })?;
//!
//! // Task 0 adds 5 to the register. Its message becomes broadcast 1, and card 0 delivers it.
//! store.step(Step::RequestUpdate { task: 0, register: 0, function: Function::AddStaysAtTheTop, operand: 5 })?;
//! store.step(Step::SendUpdate { task: 0 })?;
//! store.step(Step::Dispatch { card: 0 })?;
//! store.step(Step::TakeBroadcast { card: 0 })?;
//! store.step(Step::Deliver { card: 0 })?;
//! assert_eq!(store.task(0), Condition::DoneUpdate(0)); // it found 0
//! assert_eq!(store.step(Step::Report { task: 0 })?.value, 0);
//!
//! // Card 1 has not taken it: nothing is there to deliver, and its copy is still 0.
//! assert_eq!(store.step(Step::Deliver { card: 1 }), Err(Refusal::InboxEmpty));
//! assert_eq!((store.copy(0, 0), store.copy(1, 0)), (5, 0));
//! store.step(Step::TakeBroadcast { card: 1 })?;
//! store.step(Step::Deliver { card: 1 })?;
//!
//! // Task 1 reads its own card's copy.
//! store.step(Step::RequestRead { task: 1, register: 0 })?;
//! store.step(Step::Perform { task: 1 })?;
//! assert_eq!(store.step(Step::Report { task: 1 })?.value, 5);
//! # Ok::<(), Refusal>(())
//! ```
//!
//! A step that is taken gives [`Taken`]: at a report the value read or the value that the update
//! found, and of step 8 whether its message is held. So a counter hands out numbers: tasks that add
//! 1 to a register are told different ones (RULES 5.15, `examples/tickets.rs`). A whole run file is
//! answered by [`answer`], and written from a placement and [`Steps`] by [`write()`]; [`load()`]
//! draws one from a seed. A refusal prints as a phrase; [`sentence()`] says it with the place of its
//! step. A register's log is added up by [`total()`], and card by card by [`total_by_card`]; its
//! copies on all cards are fetched at once by [`Store::copies`].
//!
//! # Memory
//!
//! A [`Store`] is 7,508 bytes. It holds no pointer and the library keeps nothing elsewhere, so
//! a clone is a store of its own that goes on from the same state. [`Store::start`] gives one
//! by value, which may pass over the stack; where the stack is small, put
//! [`Store::unstarted`] in a `static` or on the heap and [`restart`](Store::restart) it there.
//! [`answer`] has a store on the stack while it runs. [`Steps`] for the longest run file take
//! 36 KiB; they may be in a `static` too. Nothing here allocates.
//!
//! # Threads
//!
//! A store has one caller at a time: what changes it takes `&mut`. It is [`Send`] and [`Sync`],
//! so it may go to another thread, and several may read one together. Stores do not touch each
//! other.
//!
//! # Byte order
//!
//! Run files and answers are bytes, low byte first, and the same on every machine. The words of
//! a store ([`Store::words`]) are numbers of the machine; who keeps them as bytes fixes an
//! order, for instance by [`u32::to_le_bytes`].
//!
//! # The library
//!
//! It is found when the crate is built: `libgondzselu.a` in the folder that the variable
//! `GONDZSELU_LIB_DIR` names, or else what `./build firmware` wrote in the repository
//! (`target/staticlib/libfirmware.a`, the same library under the name that it is built by). Its
//! version and the sizes of its memories are checked whenever a store is started, a file
//! answered, written or drawn, a sentence asked for, or a log added up ([`check_library`]).

#![no_std]
#![deny(missing_docs, unsafe_code)]
#![deny(clippy::undocumented_unsafe_blocks)]

mod condition;
mod library;
mod limits;
mod load;
mod raw;
mod refusal;
mod run;
mod sentence;
mod step;
mod store;
mod taken;
mod total;
mod write;

pub use condition::Condition;
pub use library::{check_library, version, OtherLibrary, VERSION};
pub use limits::*;
pub use load::load;
pub use refusal::Refusal;
pub use run::{answer, answer_counted, Tally};
pub use sentence::{sentence, sentence_bytes, Sentence};
pub use step::{Function, Step};
pub use store::{Placement, Store};
pub use taken::{Taken, HELD};
pub use total::{total, total_by_card};
pub use write::{write, write_bytes, Steps};

/// The examples of the README are run with the tests.
#[cfg(doctest)]
#[doc = include_str!("../README.md")]
struct Readme;
