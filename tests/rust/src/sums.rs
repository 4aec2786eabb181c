//! The totals of a run's logs by card, as the program `sums` prints them (RULES 16.8): written from
//! the rules and the model, not from the program. `cases` has the files that are kept in
//! crates/sums/cases; `printed` holds the program to this text on generated files.

pub mod cases;
pub mod printed;

use crate::logs::Logs;
use crate::model::files::Run;
use crate::model::totals::{groups, total, Log};
use crate::view::{refused, sizes};

/// What the program prints for an input.
pub fn sums(file: &[u8]) -> String {
    match Run::read(file) {
        Ok(run) => text(&run, &Logs::of(&run).0.logs),
        Err(refusal) => refused(refusal) + "\n",
    }
}

/// A run with these logs, by register.
fn text(run: &Run, logs: &[Log]) -> String {
    let present = run.placement.cards as usize;
    let names = (0..present).map(|card| format!("card {card}"));
    let mut text = sizes(&run.placement, run.steps.len());
    text += &line("", names.chain(["total".to_string()]));
    for (register, Log { cards, operands }) in logs.iter().enumerate() {
        let (_, total) = total(cards, operands);
        let groups = groups(cards, operands).into_iter().take(present);
        let numbers = groups.chain([total]).map(|number| number.to_string());
        text += &line(&format!("register {register:>2}"), numbers);
    }
    text
}

/// A name, and columns at the right of 12.
fn line(name: &str, columns: impl Iterator<Item = String>) -> String {
    let columns: String = columns.map(|column| format!("{column:>12}")).collect();
    format!("{name:<11}{columns}\n")
}

#[cfg(test)]
mod tests {
    use super::*;
    use crate::model::placement::Placement;
    use crate::named;
    use crate::steps::*;

    fn of(name: &str) -> String {
        let mut runs = named::runs().into_iter();
        sums(&runs.find(|run| run.name == name).expect("a named run").file)
    }

    /// Written out by hand: of K9 no update has function 5, of `counter` one.
    #[test]
    fn named_runs() {
        assert_eq!(of("K3"), "refused 1: too short for its sizes\n");
        assert_eq!(of("K4-nine"), "refused 3: a size out of range\n");
        let smallest = "cards 1, registers 1, tasks 1, steps 0

                 card 0       total
register  0           0           0
";
        assert_eq!(of("K1"), smallest);
        let k9 = "cards 3, registers 2, tasks 3, steps 16

                 card 0      card 1      card 2       total
register  0           0           0           0           0
register  1           0           0           0           0
";
        assert_eq!(of("K9"), k9);
        let counter = "cards 1, registers 1, tasks 1, steps 17

                 card 0       total
register  0           3           3
";
        assert_eq!(of("counter"), counter);
    }

    /// Task 1's comes after task 0's, and the sum comes round.
    #[test]
    fn of_two_cards() {
        let placement = Placement::new(2, &[0, 1], &[(0b11, 0)]);
        let steps = vec![
            request_update(0, 0, 5, 3),
            send_update(0),
            dispatch(0),
            take_broadcast(0),
            deliver(0),
            report(0),
            request_update(1, 0, 5, u32::MAX),
            send_update(1),
            dispatch(1),
            take_broadcast(1),
            take_broadcast(0),
            deliver(0),
        ];
        let text = "cards 2, registers 1, tasks 2, steps 12

                 card 0      card 1       total
register  0           3  4294967295           2
";
        assert_eq!(sums(&Run { placement, steps }.write()), text);
    }
}
