//! An independent model of the store in plain Rust, written from docs/RULES.md, run files to try
//! it on, and what is needed to compare the proved store with it.
//!
//! `model` holds the rules, `named` the runs K1 to K13, `steps` the ten steps as bytes, `generate`
//! makes files from a seed, `statistics` tells what files contain and what they must reach,
//! `memory` has a state in the words of a store, `by_hand` makes states that no run needs to reach,
//! `sentence` puts refusals into words, `logs` has what totals are made of, `stored`, `view`, `say`,
//! `compose`, `sums` and `loads` have the files that the tree keeps (`folder`), `selfcheck`,
//! `consistency` and `applied` try the model itself, `library` compares the store with it, `writing` a
//! writer of run files, `loading` a drawer of loads, `totalling` readers of logs, `fetching` readers of
//! copies, and `roundtrip` the programs `view` and `compose`.

pub mod applied;
pub mod by_hand;
pub mod compose;
pub mod consistency;
pub mod fetching;
pub mod folder;
pub mod generate;
#[cfg(feature = "library")]
pub mod library;
pub mod loading;
pub mod loads;
pub mod logs;
pub mod memory;
pub mod model;
pub mod named;
#[cfg(feature = "pictures")]
pub mod pictured;
pub mod random;
pub mod roundtrip;
pub mod say;
pub mod selfcheck;
pub mod sentence;
pub mod statistics;
pub mod steps;
pub mod stored;
pub mod sums;
pub mod totalling;
pub mod view;
pub mod writing;
