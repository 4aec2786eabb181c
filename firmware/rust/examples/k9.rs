//! K9 (RULES 3.5, 13): task 0 reads what broadcast 1 set; then its message overtakes broadcast 1.
use gondzselu::{Function, Placement, Step, Store, Tally};
use std::{error::Error, io::Write};

fn main() -> Result<(), Box<dyn Error>> {
    let place = Placement {
        cards: 3,
        homes: &[0, 1, 2],
        copies: &[0b111, 0b010], // register 0 is on all three cards, register 1 on card 1 alone
        primaries: &[0, 1],
    };
    #[rustfmt::skip] // a table, one step after another
    let steps = [
        ("task 2 requests to set register 0 to 7",
         Step::RequestUpdate { task: 2, register: 0, function: Function::Set, operand: 7 }),
        ("task 2 sends its update", Step::SendUpdate { task: 2 }),
        ("card 2 dispatches it, as broadcast 1", Step::Dispatch { card: 2 }), // three holders
        ("card 0 takes broadcast 1", Step::TakeBroadcast { card: 0 }),
        ("card 0 delivers the 7", Step::Deliver { card: 0 }),
        ("task 0 requests to read register 0", Step::RequestRead { task: 0, register: 0 }),
        ("task 0 performs its read", Step::Perform { task: 0 }), // of the copy on its own card
        ("task 0 reports", Step::Report { task: 0 }),
        ("task 0 requests to set register 1 to 9", // it has read 7: who sees the 9 must see the 7
         Step::RequestUpdate { task: 0, register: 1, function: Function::Set, operand: 9 }),
        ("task 0 sends its update", Step::SendUpdate { task: 0 }),
        ("card 0 dispatches it, with tag 1", Step::Dispatch { card: 0 }), // card 0 has taken one
        ("card 1 takes task 0's message", Step::TakeSingle { task: 0 }), // held: card 1 has not
        ("card 1 delivers", Step::Deliver { card: 1 }), // so its inbox is empty still
        ("card 1 takes broadcast 1", Step::TakeBroadcast { card: 1 }), // the 9 joins behind the 7
        ("card 1 delivers the 7", Step::Deliver { card: 1 }),
        ("card 1 delivers the 9", Step::Deliver { card: 1 }),
    ];
    let (mut store, mut tally) = (Store::start(place)?, Tally::default());
    let mut out = std::io::stdout().lock();
    for (at, (words, step)) in steps.into_iter().enumerate() {
        let report = matches!(step, Step::Report { .. }); // it answers what was read or found
        match store.step_counted(step, &mut tally) {
            Err(refusal) => writeln!(out, "{at:2}  {words:39}{:3} refused", refusal.number())?,
            Ok(t) if report => writeln!(out, "{at:2}  {words:39}  0 {t}, value {}", t.value)?,
            Ok(t) => writeln!(out, "{at:2}  {words:39}{:3} {t}", t.result())?, // taken, or held
        }
    }
    write!(out, "requests {}", store.requests())?;
    writeln!(out, ", broadcasts {}", store.broadcasts())?;
    for card in 0..place.cards {
        let taken = store.broadcasts_taken(card);
        write!(out, "card {card}: broadcasts taken {taken}")?;
        for (x, _) in (0..).zip(place.copies).filter(|c| c.1 & (1 << card) != 0) {
            write!(out, ", register {x} is {}", store.copy(card, x))?;
        }
        writeln!(out)?;
    }
    for task in 0..place.homes.len() as u8 {
        writeln!(out, "task {task}: {}", store.task(task))?;
    }
    let Tally { taken, refused } = tally;
    writeln!(out, "steps: {taken} taken, {refused} refused")?;
    Ok(out.flush()?)
}
