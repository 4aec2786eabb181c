//! The tuned side does what the model does, on generated files of every kind: every step by itself,
//! checked and unchecked, and the whole run.

use gondzselu_model::generate::{file_of, KINDS};
use gondzselu_model::model::files::{answer_into, Run};
use gondzselu_model::model::results::taken;
use gondzselu_model::model::tally::Tally;
use gondzselu_model::model::State;
use gondzselu_model::random::Random;
use tuned::Store;

/// Of each kind.
const FILES: u64 = 60;

/// How many files and steps were compared.
pub fn tuned_with_model() -> (usize, usize) {
    let (mut files, mut steps) = (0, 0);
    for kind in KINDS {
        for item in 0..FILES {
            let file = file_of(kind, &mut Random::new(2, item));
            whole(&file);
            steps += one_by_one(&file);
            files += 1;
        }
    }
    (files, steps)
}

/// The answer in an output that is a byte too short, just long enough, a byte too long.
fn whole(file: &[u8]) {
    let steps = Run::read(file).map_or(0, |run| run.steps.len());
    for length in [1, 2, 3].map(|bytes| bytes + 5 * steps) {
        let mut output = vec![0xA5; length];
        let mut wanted = output.clone();
        let expected = answer_into(file, &mut wanted, &mut Tally::default());
        assert_eq!(tuned::answer(file, &mut output), expected);
        assert!(output == wanted, "another answer");
    }
}

/// How many steps the file has; none if it is refused.
fn one_by_one(file: &[u8]) -> usize {
    let mut checked = Store::unstarted();
    let started = checked.start_from_file(file);
    let run = match Run::read(file) {
        Ok(run) => run,
        Err(refusal) => {
            assert_eq!(started, refusal);
            assert!(checked == Store::unstarted(), "a refused start writes");
            return 0;
        }
    };
    assert_eq!(started, 0);
    let mut unchecked = checked.clone();
    let mut state = State::start(run.placement).expect("an accepted placement");
    for (place, &(code, argument)) in run.steps.iter().enumerate() {
        let expected = state.step(code, argument);
        let before = checked.clone();
        assert_eq!(checked.step(code, argument), expected, "{place}");
        assert_eq!(unchecked.step_reached(code, argument), expected, "{place}");
        assert!(checked == unchecked, "{place}: the two differ");
        assert!(
            taken(expected.0) || checked == before,
            "{place}: a refused step writes"
        );
    }
    run.steps.len()
}
