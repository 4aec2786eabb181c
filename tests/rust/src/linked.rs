//! What `compare` does with the library, which the feature `library` links.

use gondzselu_model::fetching;
use gondzselu_model::library;
use gondzselu_model::loading;
use gondzselu_model::random::Random;
use gondzselu_model::statistics;
use gondzselu_model::totalling;
use gondzselu_model::writing;

use crate::{each, number, reached};

/// Files, each as a whole.
pub fn files(seed: &str, count: &str) -> Result<(), String> {
    each(seed, count, |_, file| library::compare(file))
}

/// The steps of files one by one.
pub fn steps(seed: &str, count: &str) -> Result<(), String> {
    let mut compared = fetching::Compared::default();
    each(seed, count, |item, file| {
        library::compare_steps(file, &mut Random::new(item, 1), &mut compared)
    })?;
    println!("{compared}");
    let missing = compared.missing(&[fetching::Of::Runs]);
    reached(number(count)?, statistics::FILES, missing)
}

/// K1 to K13, single words of the memories, and states made by hand.
pub fn states(seed: &str, count: &str) -> Result<(), String> {
    library::compare_named()?;
    let mut compared = library::states::Compared::default();
    let words = library::words::compare(&mut compared.copies)?;
    let (seed, count) = (number(seed)?, number(count)?);
    for item in 0..count {
        library::states::compare(&mut Random::new(seed, item), &mut compared)
            .map_err(|words| format!("seed {seed} item {item}: {words}"))?;
    }
    println!("K1 to K13, {words} single words");
    println!(
        "{} states, {} of them ill-sized; steps of the others by result",
        compared.states, compared.ill_sized
    );
    for (result, count) in &compared.results {
        println!("  {result:>3} {count:>9}");
    }
    println!("{}", compared.copies);
    let mut missing = statistics::by_hand(compared.states, compared.ill_sized, &compared.results);
    missing.extend(statistics::faults(&compared.faults));
    missing.extend(compared.copies.missing(&fetching::BY_HAND));
    reached(count, statistics::STATES, missing)
}

/// Every refusal, steps about every power of ten, outputs of every length.
pub fn sentences() -> Result<(), String> {
    let library::sentences::Compared { steps, calls } = library::sentences::compare()?;
    println!("sentences of {steps} steps and 256 refusals, {calls} calls");
    Ok(())
}

/// Run files that it writes from tables.
pub fn write(seed: &str, count: &str) -> Result<(), String> {
    let missing = writing::Compared::missing;
    items(seed, count, library::write::compare, missing)
}

/// Seeds at their ends, then loads of a seed.
pub fn loads(seed: &str, count: &str) -> Result<(), String> {
    let ends = library::load::ends()?;
    println!("loads of seeds at their ends {ends}");
    let missing = loading::Compared::missing;
    items(seed, count, library::load::compare, missing)
}

/// Totals of logs.
pub fn totals(seed: &str, count: &str) -> Result<(), String> {
    let missing = totalling::Compared::missing;
    items(seed, count, library::totals::compare, missing)
}

/// Compares on each item of a seed, and prints what was compared.
fn items<Compared: Default + std::fmt::Display>(
    seed: &str,
    count: &str,
    compare: fn(&mut Random, &mut Compared) -> Result<(), String>,
    missing: fn(&Compared) -> Vec<String>,
) -> Result<(), String> {
    let (seed, count) = (number(seed)?, number(count)?);
    let mut compared = Compared::default();
    for item in 0..count {
        compare(&mut Random::new(seed, item), &mut compared)
            .map_err(|words| format!("seed {seed} item {item}: {words}"))?;
    }
    println!("{compared}");
    reached(count, statistics::FILES, missing(&compared))
}
