//! Step 8 (RULES 5.8): a message that is held is taken, as one that joins its inbox is.

use gondzselu::{Condition, Refusal, Step, Store, Taken, Tally};

/// RULES 3.5.
const K9: [u8; 156] = *include_bytes!("../../../examples/k9.run");

fn k9_step(place: usize) -> Step {
    let argument = &K9[28 + 8 * place..36 + 8 * place];
    let argument = argument.try_into().expect("eight bytes");
    Step::from_bytes(K9[12 + place], argument).expect("a step")
}

#[test]
fn held_or_joined_a_message_is_taken() {
    let mut store = Store::start_from_file(&K9).expect("an accepted file");
    let mut tally = Tally::default();
    for place in 0..11 {
        let answer = store.step_counted(k9_step(place), &mut tally);
        assert!(answer.is_ok_and(|taken| !taken.held), "step {place}");
    }
    let single = Step::TakeSingle { task: 0 };
    assert_eq!((k9_step(11), tally.taken, tally.refused), (single, 11, 0));

    // Its tag is 1, and card 1 has taken no broadcast.
    let before = store.clone();
    let held = Taken {
        value: 0,
        held: true,
    };
    assert_eq!(store.step_counted(single, &mut tally), Ok(held));
    assert_eq!((tally.taken, tally.refused), (12, 0));
    assert!(store != before, "it is no longer in flight");
    let again = store.clone().step(single);
    assert_eq!(again, Err(Refusal::NothingInFlight));

    for place in 12..16 {
        let answer = store.step_counted(k9_step(place), &mut tally);
        assert_eq!(answer.is_err(), place == 12, "step {place}");
    }
    assert_eq!(store.copy(1, 1), 9);

    // Card 1's reply has tag 1 too, and card 0 has taken broadcast 1: it joins the inbox there.
    let joined = Taken {
        value: 0,
        held: false,
    };
    for step in [Step::Dispatch { card: 1 }, single] {
        assert_eq!(store.step_counted(step, &mut tally), Ok(joined), "{step}");
    }
    assert_eq!((tally.taken, tally.refused), (17, 1));
    assert_eq!(store.step(Step::Deliver { card: 0 }), Ok(joined));
    assert_eq!(store.task(0), Condition::DoneUpdate(0));
}
