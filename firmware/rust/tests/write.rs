//! Run files from typed steps (RULES 3, 13): K9 byte for byte, in every room; steps that nobody
//! examines; and how many there is room for. `write_tables.rs` has the refusals.

use gondzselu::{answer, write, Function, Placement, Refusal, Step, Steps, MAX_STEPS};

const K9: [u8; 156] = *include_bytes!("../../../examples/k9.run");
const K9_PLACE: Placement<'_> = Placement {
    cards: 3,
    homes: &[0, 1, 2],
    copies: &[0b111, 0b010],
    primaries: &[0, 1],
};

/// What lies in a lent output before.
const FILL: u8 = 0xEE;

/// RULES 13.2.
fn k9_steps() -> Steps<16> {
    let set = |task, register, operand| Step::RequestUpdate {
        task,
        register,
        function: Function::Set,
        operand,
    };
    let mut steps = Steps::new();
    for step in [
        set(2, 0, 7),
        Step::SendUpdate { task: 2 },
        Step::Dispatch { card: 2 },
        Step::TakeBroadcast { card: 0 },
        Step::Deliver { card: 0 },
        Step::RequestRead {
            task: 0,
            register: 0,
        },
        Step::Perform { task: 0 },
        Step::Report { task: 0 },
        set(0, 1, 9),
        Step::SendUpdate { task: 0 },
        Step::Dispatch { card: 0 },
        Step::TakeSingle { task: 0 },
        Step::Deliver { card: 1 },
        Step::TakeBroadcast { card: 1 },
        Step::Deliver { card: 1 },
        Step::Deliver { card: 1 },
    ] {
        steps.push(step).expect("room for 16");
    }
    steps
}

#[test]
fn k9_from_typed_steps() {
    let steps = k9_steps();
    let mut output = [FILL; 160];
    assert_eq!(write(K9_PLACE, &steps, &mut output), Ok(156));
    assert_eq!(output[..156], K9);
    assert_eq!(output[156..], [FILL; 4]);
    assert_eq!((steps.codes(), steps.arguments()), K9[12..].split_at(16));
    // Steps in more room than they need are written alike.
    let mut roomy = Steps::<MAX_STEPS>::new();
    for (&code, argument) in steps.codes().iter().zip(steps.arguments().chunks_exact(8)) {
        let argument = argument.try_into().expect("eight bytes");
        roomy.push_bytes(code, argument).expect("room");
    }
    let mut again = [FILL; 156];
    assert_eq!(write(K9_PLACE, &roomy, &mut again), Ok(156));
    assert_eq!(again, K9);
}

#[test]
fn k9_in_every_room() {
    let steps = k9_steps();
    for room in 0..=160 {
        let mut output = [FILL; 160];
        let written = write(K9_PLACE, &steps, &mut output[..room]);
        let mut after = [FILL; 160];
        if room < 156 {
            assert_eq!(written, Err(Refusal::OutputTooShort), "{room} bytes");
        } else {
            assert_eq!(written, Ok(156), "{room} bytes");
            after[..156].copy_from_slice(&K9);
        }
        assert_eq!(output, after, "{room} bytes");
    }
}

/// Every code with every argument byte: carried as they are, and the run judges them.
#[test]
fn steps_are_not_examined() {
    let mut steps = Steps::<256>::new();
    for code in 0..=255 {
        let argument = [code, 255, 254, 253, 252, 251, 250, !code];
        steps.push_bytes(code, argument).expect("room for 256");
    }
    let mut file = [FILL; 12 + 9 * 256];
    assert_eq!(write(K9_PLACE, &steps, &mut file), Ok(12 + 9 * 256));
    let (codes, arguments) = file[12..].split_at(256);
    for (code, argument) in (0..=255).zip(arguments.chunks_exact(8)) {
        assert_eq!(codes[usize::from(code)], code);
        assert_eq!(argument, [code, 255, 254, 253, 252, 251, 250, !code]);
    }
    let mut answers = [0; 2 + 5 * 256];
    assert_eq!(answer(&file, &mut answers), Ok(2 + 5 * 256));
    for (code, &result) in answers[2..258].iter().enumerate() {
        let known = (1..=10).contains(&code);
        assert_eq!(result, if known { 11 } else { 10 }, "code {code}");
    }
}

#[test]
fn steps_end_where_their_room_ends() {
    let (first, second) = (
        Step::Report { task: 1 },
        Step::SendRead { task: 2, card: 3 },
    );
    let mut steps = Steps::<2>::new();
    assert!(steps.is_empty() && steps.codes().is_empty() && steps.arguments().is_empty());
    assert_eq!((steps.push(first), steps.len()), (Ok(()), 1));
    assert!(!steps.is_empty());
    assert_eq!((steps.push(second), steps.len()), (Ok(()), 2));
    let full = steps.clone();
    for _ in 0..2 {
        assert_eq!(steps.push(first), Err(Refusal::SizeOutOfRange));
        assert_eq!(steps.push_bytes(0, [9; 8]), Err(Refusal::SizeOutOfRange));
    }
    assert_eq!(steps, full);
    assert_eq!(steps.codes(), [10, 4]);
    let arguments = [1, 0, 0, 0, 0, 0, 0, 0, 2, 3, 0, 0, 0, 0, 0, 0];
    assert_eq!(steps.arguments(), arguments);
    assert_eq!(
        format!("{steps:?}"),
        "[(10, [1, 0, 0, 0, 0, 0, 0, 0]), (4, [2, 3, 0, 0, 0, 0, 0, 0])]"
    );
    steps.clear();
    assert_eq!(steps, Steps::default());
    assert_ne!(steps, full);
    for step in [first, Step::SendRead { task: 2, card: 4 }] {
        steps.push(step).expect("room for 2");
    }
    assert_ne!(steps, full);
    steps.clear();
    // What was there before does not come back.
    assert_eq!(steps.push(second), Ok(()));
    assert_eq!(
        (steps.codes(), steps.arguments()),
        (&[4][..], &arguments[8..])
    );
    let mut none = Steps::<0>::new();
    assert_eq!(none.push(first), Err(Refusal::SizeOutOfRange));
    let mut file = [FILL; 12];
    assert_eq!(write(K9_PLACE, &none, &mut file), Ok(12));
    assert_eq!(file, [3, 2, 3, 0, 0, 0, 1, 2, 7, 2, 0, 1]);
}
