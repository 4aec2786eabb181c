//! The named runs K1 to K13 (RULES 13), with answers worked out by hand.

mod cards;

use crate::model::files::{write_answer, RawStep, Run};
use crate::model::placement::Placement;
use crate::model::Refusal;
use crate::steps::{perform, report, request_read, request_update, send_update, set};

pub struct Named {
    pub name: &'static str,
    pub file: Vec<u8>,
    pub answer: Result<Vec<u8>, Refusal>,
}

/// K1 to K12; K13 is longer than a file (see `k13`).
pub fn runs() -> Vec<Named> {
    vec![
        file("K1", &[1, 1, 1, 0, 0, 0, 1, 0], Ok(&[0, 0])),
        k2(),
        file("K3", &[1, 1, 1, 0], Err(1)),
        file("K4-nine", &[9, 1, 1, 0, 0, 0, 1, 0], Err(3)),
        file("K4-eight", &[8, 1, 1, 0, 0, 0, 1, 0], Ok(&[0, 0])),
        file("K5", &[1, 1, 1, 0, 0, 0, 0, 0], Err(4)),
        file("K6", &[1, 1, 1, 0, 0, 0, 2, 0], Err(4)),
        k7(),
        k8(),
        cards::k9(),
        cards::k10(),
        cards::two_held(),
        counter(),
        cards::tickets(),
        cards::k11(),
        cards::k12(),
    ]
}

fn file(name: &'static str, file: &[u8], answer: Result<&[u8], Refusal>) -> Named {
    Named {
        name,
        file: file.to_vec(),
        answer: answer.map(<[u8]>::to_vec),
    }
}

/// A step with its result and its value.
type Told = (RawStep, (u8, u32));

fn taken(step: RawStep) -> Told {
    (step, (0, 0))
}

/// A step 8 whose message is held (RULES 5.8).
fn held(step: RawStep) -> Told {
    (step, (100, 0))
}

fn gives(step: RawStep, value: u32) -> Told {
    (step, (0, value))
}

fn refused(step: RawStep, refusal: Refusal) -> Told {
    (step, (refusal, 0))
}

/// A run told as steps, each with its answer.
fn told(name: &'static str, placement: Placement, steps: &[Told]) -> Named {
    let answers: Vec<_> = steps.iter().map(|&(_, answer)| answer).collect();
    let steps = steps.iter().map(|&(step, _)| step).collect();
    Named {
        name,
        file: Run { placement, steps }.write(),
        answer: Ok(write_answer(&answers)),
    }
}

/// Byte for byte as RULES 3.6 and 4.8 have it.
fn k2() -> Named {
    let mut bytes = vec![0x01, 0x01, 0x01, 0x06, 0x00, 0x00, 0x01, 0x00];
    bytes.extend([0x02, 0x03, 0x0A, 0x01, 0x03, 0x0A]);
    bytes.extend([0x00, 0x00, 0x02, 0x00, 0x05, 0x00, 0x00, 0x00]);
    bytes.extend([0; 40]);
    let mut answer = vec![0x06, 0x00];
    answer.extend([0; 6]);
    answer.extend([0; 20]);
    answer.extend([0x05, 0x00, 0x00, 0x00]);
    file("K2", &bytes, Ok(&answer))
}

/// One card, register and task.
fn alone() -> Placement {
    Placement::new(1, &[0], &[(1, 0)])
}

fn k7() -> Named {
    let steps = [
        taken(request_read(0, 0)),
        refused(request_read(0, 1), 13),
        refused(request_read(0, 0), 20),
    ];
    told("K7", alone(), &steps)
}

fn k8() -> Named {
    let steps = [
        taken(set(0, 0, 5)),
        refused(send_update(0), 22),
        taken(perform(0)),
    ];
    told("K8", alone(), &steps)
}

/// A counter near the top: function 2 stays there, function 5 comes round; 6 and 0 are no functions. Each
/// update reports what it found.
fn counter() -> Named {
    let update = |function, operand, found| {
        let request = request_update(0, 0, function, operand);
        [taken(request), taken(perform(0)), gives(report(0), found)]
    };
    let read = |value| {
        [
            taken(request_read(0, 0)),
            taken(perform(0)),
            gives(report(0), value),
        ]
    };
    let mut steps = Vec::new();
    steps.extend(update(1, 4_294_967_294, 0));
    steps.extend(update(2, 3, 4_294_967_294));
    steps.extend(read(4_294_967_295));
    steps.extend(update(5, 3, 4_294_967_295));
    steps.extend(read(2));
    steps.extend([6, 0].map(|function| refused(request_update(0, 0, function, 3), 15)));
    told("counter", alone(), &steps)
}

/// From `start` every round is taken, so many times; then the first step of a round is refused.
pub struct Rounds {
    pub start: Placement,
    pub round: [RawStep; 3],
    pub times: u32,
    pub refusal: Refusal,
}

/// Request 65,535 passes, the next gives 23 (RULES 7.8).
pub fn k13() -> Rounds {
    Rounds {
        start: alone(),
        round: [request_read(0, 0), perform(0), report(0)],
        times: 65_535,
        refusal: 23,
    }
}

#[cfg(test)]
mod tests {
    use super::*;
    use crate::folder;
    use crate::model::files::answer_file;
    use crate::model::State;

    #[test]
    fn the_model_gives_the_answers() {
        for run in runs() {
            assert_eq!(answer_file(&run.file), run.answer, "{}", run.name);
        }
    }

    /// The files of `examples` are K2 and K9 (RULES 3.5, 3.6), a counter at the top (13.3), and numbers handed
    /// out (13.4).
    #[test]
    fn the_examples_are_these() {
        let examples = ["K2", "K9", "counter", "tickets"].map(|name| {
            let mut runs = runs().into_iter();
            let run = runs.find(|run| run.name == name).expect("a named run");
            (format!("{}.run", name.to_lowercase()), run.file)
        });
        let folder = folder::of_tree("examples");
        assert_eq!(folder::compare(&folder, &examples), Ok(()));
    }

    #[test]
    fn k13_by_calls() {
        let k13 = k13();
        let mut state = State::start(k13.start).unwrap();
        for number in 1..=k13.times {
            for (code, argument) in k13.round {
                let answer = state.step_reached(code, argument);
                assert_eq!(answer, (0, 0), "round {number}");
            }
        }
        let (code, argument) = k13.round[0];
        assert_eq!(state.step(code, argument), (k13.refusal, 0));
    }
}
