//! An update is told the value that it found (RULES 5.3, 5.9, 5.10): performed at home, delivered
//! at home, or by a reply of the primary.

use gondzselu::{Condition, Function, Placement, Step, Store, Taken};

/// Register 0 on card 0 alone, register 1 on cards 0 and 1 with primary 1. Task t lives on card t.
const PLACE: Placement<'_> = Placement {
    cards: 3,
    homes: &[0, 1, 2],
    copies: &[0b001, 0b011],
    primaries: &[0, 1],
};

fn start() -> Store {
    Store::start(PLACE).expect("a placement")
}

fn taken(value: u32) -> Taken {
    Taken { value, held: false }
}

/// These steps, which have no value.
fn play(store: &mut Store, steps: &[Step]) {
    for &step in steps {
        assert_eq!(store.step(step), Ok(taken(0)), "{step}");
    }
}

fn update(task: u8, register: u8, function: Function, operand: u32) -> Step {
    Step::RequestUpdate {
        task,
        register,
        function,
        operand,
    }
}

/// The task is done with an update that found this value, and reports it once.
fn reports(store: &mut Store, task: u8, found: u32) {
    let done = store.task(task);
    assert_eq!(done, Condition::DoneUpdate(found));
    assert_eq!((done.number(), done.value()), (5, found));
    assert_eq!(store.step(Step::Report { task }), Ok(taken(found)));
    assert_eq!(store.task(task), Condition::Quiet);
    assert_eq!(store.task(task).value(), 0);
}

/// By every function: home is the only holder.
#[test]
fn performed_at_home() {
    let mut store = start();
    let mut found = 0;
    for (function, operand, makes) in [
        (Function::Set, 4_294_967_294, 4_294_967_294),
        (Function::AddStaysAtTheTop, 3, 4_294_967_295),
        (Function::AddComesRound, 6, 5),
        (Function::Larger, 12, 12),
        (Function::Or, 3, 15),
        (Function::Larger, 7, 15),
    ] {
        play(&mut store, &[update(0, 0, function, operand)]);
        assert_eq!(store.task(0), Condition::AskingUpdate(operand));
        play(&mut store, &[Step::Perform { task: 0 }]);
        assert_eq!(store.copy(0, 0), makes, "{function}");
        reports(&mut store, 0, found);
        found = makes;
    }
}

/// Two tasks add to the same register. The order of the broadcasts is that of the values found,
/// whichever card delivers first.
#[test]
fn delivered_at_home() {
    let mut store = start();
    for task in [0, 1] {
        let add = update(task, 1, Function::AddComesRound, 10 + u32::from(task));
        play(&mut store, &[add, Step::SendUpdate { task }]);
    }
    play(&mut store, &[1, 0].map(|card| Step::Dispatch { card }));
    for card in [0, 1] {
        let next = [Step::TakeBroadcast { card }, Step::Deliver { card }];
        play(&mut store, &next);
        assert_eq!(store.copy(card, 1), 11, "task 1's is broadcast 1");
        play(&mut store, &next);
        assert_eq!(store.copy(card, 1), 21);
    }
    reports(&mut store, 0, 11);
    reports(&mut store, 1, 0);
}

/// Card 2 has no copy. The primary's reply brings what the primary found, also where its copy was
/// changed again before the reply arrives.
#[test]
fn by_a_reply_of_the_primary() {
    let mut store = start();
    let send = |task, operand| {
        let set = update(task, 1, Function::Set, operand);
        [
            set,
            Step::SendUpdate { task },
            Step::Dispatch { card: task },
        ]
    };
    for (task, operand) in [(0, 5), (2, 8), (1, 9)] {
        play(&mut store, &send(task, operand));
    }
    let next = [Step::TakeBroadcast { card: 1 }, Step::Deliver { card: 1 }];
    for copy in [5, 8, 9] {
        play(&mut store, &next);
        assert_eq!(store.copy(1, 1), copy);
    }
    reports(&mut store, 1, 8);
    // Card 0, a holder too, has applied nothing: the reply is the primary's.
    assert_eq!((store.copy(0, 1), store.task(2)), (0, Condition::Waiting));
    play(&mut store, &[Step::Dispatch { card: 1 }]);
    play(&mut store, &[Step::TakeBroadcast { card: 2 }; 3]);
    let arrives = [Step::TakeSingle { task: 2 }, Step::Deliver { card: 2 }];
    play(&mut store, &arrives);
    reports(&mut store, 2, 5);
}

/// By a reply too where one card alone holds the register, and home is another.
#[test]
fn by_a_reply_of_the_only_holder() {
    let mut store = start();
    for (operand, found) in [(3, 0), (4, 3)] {
        play(
            &mut store,
            &[
                update(2, 0, Function::AddStaysAtTheTop, operand),
                Step::SendUpdate { task: 2 },
                Step::Dispatch { card: 2 },
                Step::TakeSingle { task: 2 },
                Step::Deliver { card: 0 },
                Step::Dispatch { card: 0 },
                Step::TakeSingle { task: 2 },
                Step::Deliver { card: 2 },
            ],
        );
        reports(&mut store, 2, found);
    }
    assert_eq!(store.copy(0, 0), 7);
}
