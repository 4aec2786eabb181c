//! Steps as bytes and as words, and what the library says of the same bytes.

use std::collections::BTreeSet;

use gondzselu::{Function, Placement, Refusal, Step, Store, MAX_CARDS, MAX_REGISTERS, MAX_TASKS};

const FUNCTIONS: [Function; 5] = [
    Function::Set,
    Function::AddStaysAtTheTop,
    Function::Larger,
    Function::Or,
    Function::AddComesRound,
];

/// Every step with these numbers.
fn all(task: u8, register: u8, card: u8, function: Function, operand: u32) -> [Step; 10] {
    [
        Step::RequestRead { task, register },
        Step::RequestUpdate {
            task,
            register,
            function,
            operand,
        },
        Step::Perform { task },
        Step::SendRead { task, card },
        Step::SendUpdate { task },
        Step::Dispatch { card },
        Step::TakeBroadcast { card },
        Step::TakeSingle { task },
        Step::Deliver { card },
        Step::Report { task },
    ]
}

#[test]
fn codes_and_bytes_are_those_of_the_rules() {
    let steps = all(3, 20, 6, Function::Larger, 0x0403_0201);
    assert_eq!(steps.map(Step::code), [1, 2, 3, 4, 5, 6, 7, 8, 9, 10]);
    let arguments = steps.map(Step::argument);
    assert_eq!(arguments[0], [3, 20, 0, 0, 0, 0, 0, 0]);
    assert_eq!(arguments[1], [3, 20, 3, 0, 1, 2, 3, 4]);
    assert_eq!(arguments[3], [3, 6, 0, 0, 0, 0, 0, 0]);
    for k in [2, 4, 7, 9] {
        assert_eq!(arguments[k], [3, 0, 0, 0, 0, 0, 0, 0]);
    }
    for k in [5, 6, 8] {
        assert_eq!(arguments[k], [6, 0, 0, 0, 0, 0, 0, 0]);
    }
    assert_eq!(FUNCTIONS.map(Function::number), [1, 2, 3, 4, 5]);
    for number in 0..=255 {
        let function = Function::from_number(number);
        assert_eq!(function.is_some(), (1..=5).contains(&number));
        assert!(function.map_or(true, |function| function.number() == number));
    }
}

#[test]
fn bytes_come_back() {
    for number in 0..=255 {
        for function in FUNCTIONS {
            let operand = u32::from(number) << 24 | 5;
            for step in all(number, 255 - number, number ^ 7, function, operand) {
                assert_eq!(Step::from_bytes(step.code(), step.argument()), Ok(step));
            }
        }
    }
}

#[test]
fn no_two_steps_have_the_same_words() {
    let mut words = BTreeSet::new();
    for (number, function) in (0..5).zip(FUNCTIONS) {
        let steps = all(number, number + 10, number + 20, function, number.into());
        words.extend(steps.map(|step| step.to_string()));
    }
    assert_eq!(words.len(), 50);
    let longest = all(255, 255, 255, Function::AddStaysAtTheTop, u32::MAX)[1].to_string();
    assert_eq!(
        longest,
        "request update, task 255, register 255, add, stays at the top 4294967295"
    );
}

/// On a store with everything in it a wrong byte is all that a step can have of 10, 11 and 15;
/// where a number is absent too, the store says so before 15.
#[test]
fn bytes_are_refused_as_the_library_refuses_them() {
    let homes: Vec<u8> = (0..MAX_TASKS as u8).map(|task| task % 8).collect();
    let mut store = Store::start(Placement {
        cards: MAX_CARDS as u8,
        homes: &homes,
        copies: &[255; MAX_REGISTERS],
        primaries: &[7; MAX_REGISTERS],
    })
    .expect("a placement");
    let begun = store.clone();
    let mut refused = 0;
    for code in 0..=255 {
        for at in 0..8 {
            for byte in 0..=255 {
                let mut argument = [0; 8];
                argument[at] = byte;
                let made = Step::from_bytes(code, argument);
                let answer = store.step_bytes(code, argument);
                match made {
                    Ok(_) => assert!(!matches!(
                        answer,
                        Err(Refusal::UnknownCode | Refusal::UnnamedByte | Refusal::UnknownFunction)
                    )),
                    Err(Refusal::UnknownFunction) if at < 2 => {
                        let number = answer.expect_err("function 0").number();
                        assert!([12, 13, 15].contains(&number));
                    }
                    Err(refusal) => assert_eq!(answer, Err(refusal), "{code} {argument:?}"),
                }
                refused += usize::from(made.is_err());
                if answer.is_ok() {
                    store = begun.clone();
                }
            }
        }
    }
    assert!(refused > 500_000);
}
