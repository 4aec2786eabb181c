//! Stores against the rules: K9, the limits, what is copied and what is shared.

use gondzselu::{
    answer, answer_counted, Condition, Function, Placement, Refusal, Step, Store, Taken, Tally,
    CHANNEL_WORDS, HELD, LONGEST_ANSWER, LONGEST_FILE, MAX_BEHIND, MAX_CARDS, MAX_REGISTERS,
    MAX_REQUESTS, MAX_STEPS, MAX_TASKS, REGISTERS_WORDS,
};

/// One card, one task, one register.
const SMALLEST: Placement<'_> = Placement {
    cards: 1,
    homes: &[0],
    copies: &[1],
    primaries: &[0],
};

/// RULES 3.5.
const K9: [u8; 156] = *include_bytes!("../../../examples/k9.run");

fn k9_steps() -> impl Iterator<Item = (u8, [u8; 8])> {
    (0..16).map(|k| {
        let argument = &K9[28 + 8 * k..36 + 8 * k];
        (K9[12 + k], argument.try_into().expect("eight bytes"))
    })
}

const fn taken(value: u32, held: bool) -> Result<Taken, Refusal> {
    Ok(Taken { value, held })
}

const TAKEN: Result<Taken, Refusal> = taken(0, false);

/// RULES 4.7: all taken but step 12; step 7 gives 7, and the message of step 11 is held.
fn k9_answer(k: usize) -> Result<Taken, Refusal> {
    match k {
        7 => taken(7, false),
        11 => taken(0, true),
        12 => Err(Refusal::InboxEmpty),
        _ => TAKEN,
    }
}

#[test]
fn k9_by_every_kind_of_step() {
    let mut stores = [(); 6].map(|()| Store::start_from_file(&K9).expect("an accepted file"));
    let mut tallies = [Tally::default(); 2];
    for (k, (code, argument)) in k9_steps().enumerate() {
        let step = Step::from_bytes(code, argument).expect("a step");
        let [a, b, c, d, e, f] = &mut stores;
        let answers = [
            a.step(step),
            b.step_bytes(code, argument),
            c.advance(step),
            d.advance_bytes(code, argument),
            e.step_counted(step, &mut tallies[0]),
            f.step_bytes_counted(code, argument, &mut tallies[1]),
        ];
        assert_eq!(answers, [k9_answer(k); 6], "step {k}");
        assert!(stores[1..].iter().all(|store| *store == stores[0]));
    }
    let counts = Tally {
        taken: 15,
        refused: 1,
    };
    assert_eq!(tallies, [counts; 2]);
    // RULES 12.11.
    let store = &stores[0];
    assert_eq!([0, 1, 2].map(|card| store.copy(card, 0)), [7, 7, 0]);
    assert_eq!(store.copy(1, 1), 9);
    let by_card = [[7, 7, 0, 0, 0, 0, 0, 0], [0, 9, 0, 0, 0, 0, 0, 0], [0; 8]];
    assert_eq!([0, 1, 2].map(|register| store.copies(register)), by_card);
    assert_eq!((store.requests(), store.broadcasts()), (3, 1));
    let taken = [0, 1, 2, 3].map(|card| store.broadcasts_taken(card));
    assert_eq!(taken, [1, 1, 0, 0]);
    assert_eq!(store.task(200), Condition::Quiet);
    assert_eq!(
        format!("{store:?}"),
        "Store { requests: 3, broadcasts: 1, .. }"
    );
}

#[test]
fn k9_whole() {
    let (mut output, mut tally) = ([9; 84], Tally::default());
    assert_eq!(answer(&K9, &mut output), Ok(82));
    let mut wanted = [0; 84];
    wanted[0] = 16;
    wanted[2 + 11..2 + 13].copy_from_slice(&[HELD, 33]);
    wanted[46] = 7;
    wanted[82..].fill(9);
    assert_eq!(output, wanted);
    assert_eq!(answer_counted(&K9, &mut output, &mut tally), Ok(82));
    assert_eq!((tally.taken, tally.refused), (15, 1));
    for (file, room, refusal) in [
        (&K9[..4], 82, Refusal::FileTooShort),
        (&K9[..155], 82, Refusal::FileTooShort),
        (&K9[..], 81, Refusal::OutputTooShort),
        (&K9[..], 0, Refusal::OutputTooShort),
        (&[], 0, Refusal::FileTooShort),
    ] {
        let before = tally;
        assert_eq!(answer(file, &mut output[..room]), Err(refusal));
        let counted = answer_counted(file, &mut output[..room], &mut tally);
        assert_eq!((counted, tally, output), (Err(refusal), before, wanted));
    }
}

/// A file of these sizes with steps of code 0: all cards hold all registers.
fn sized(cards: usize, registers: usize, tasks: usize, steps: usize) -> Vec<u8> {
    let mut file = vec![cards as u8, registers as u8, tasks as u8];
    file.extend((steps as u16).to_le_bytes());
    file.resize(5 + tasks, 0);
    file.resize(5 + tasks + registers, ((1u32 << cards) - 1) as u8);
    file.resize(5 + tasks + 2 * registers + 9 * steps, 0);
    file
}

#[test]
fn sizes_end_where_the_limits_say() {
    let (c, r, t, n) = (MAX_CARDS, MAX_REGISTERS, MAX_TASKS, MAX_STEPS);
    let longest = sized(c, r, t, n);
    assert_eq!(longest.len(), LONGEST_FILE);
    let mut output = vec![0; LONGEST_ANSWER];
    assert_eq!(answer(&longest, &mut output), Ok(LONGEST_ANSWER));
    let mut over = longest.clone();
    over.push(0);
    assert_eq!(answer(&over, &mut output), Err(Refusal::FileTooLong));
    for file in [
        sized(c + 1, r, t, n),
        sized(c, r + 1, t, n),
        sized(c, r, t + 1, n),
        sized(c, r, t, n + 1),
        sized(0, r, t, n),
    ] {
        assert_eq!(answer(&file, &mut output), Err(Refusal::SizeOutOfRange));
        let mut store = Store::start(SMALLEST).expect("a placement");
        let before = store.clone();
        assert_eq!(store.restart_from_file(&file), Err(Refusal::SizeOutOfRange));
        assert_eq!(Store::start_from_file(&file), Err(Refusal::SizeOutOfRange));
        assert!(store == before);
    }
    let unequal = Placement {
        copies: &[1, 1],
        ..SMALLEST
    };
    assert_eq!(Store::start(unequal), Err(Refusal::SizeOutOfRange));
    let nowhere = Placement {
        copies: &[0],
        ..SMALLEST
    };
    assert_eq!(Store::start(nowhere), Err(Refusal::Misplaced));
}

/// K13.
#[test]
fn requests_end_where_the_limit_says() {
    let mut store = Store::start(SMALLEST).expect("a placement");
    let request = Step::RequestRead {
        task: 0,
        register: 0,
    };
    for _ in 0..MAX_REQUESTS {
        for step in [request, Step::Perform { task: 0 }, Step::Report { task: 0 }] {
            assert_eq!(store.advance(step), TAKEN);
        }
    }
    assert_eq!(store.requests(), MAX_REQUESTS);
    assert_eq!(store.advance(request), Err(Refusal::NoRequestLeft));
    assert_eq!(store.step(request), Err(Refusal::NoRequestLeft));
    store.restart(SMALLEST).expect("a placement");
    assert_eq!((store.requests(), store.step(request)), (0, TAKEN));
}

/// K11; then card 1 takes one broadcast, and the refused one passes.
#[test]
fn a_card_falls_behind_as_far_as_the_limit_says() {
    let both = Placement {
        cards: 2,
        copies: &[0b11],
        ..SMALLEST
    };
    let mut store = Store::start(both).expect("a placement");
    let update = Step::RequestUpdate {
        task: 0,
        register: 0,
        function: Function::Set,
        operand: 1,
    };
    let send = Step::SendUpdate { task: 0 };
    let dispatch = Step::Dispatch { card: 0 };
    let rest = [Step::TakeBroadcast { card: 0 }, Step::Deliver { card: 0 }];
    for number in 0..MAX_BEHIND {
        for step in [update, send, dispatch].into_iter().chain(rest) {
            assert_eq!(store.step(step), TAKEN);
        }
        // All but the first find the 1 that is there already.
        let found = number.min(1);
        assert_eq!(store.step(Step::Report { task: 0 }), taken(found, false));
    }
    let behind = |store: &Store| store.broadcasts() - store.broadcasts_taken(1);
    assert_eq!(behind(&store), MAX_BEHIND);
    let last = [update, send, dispatch].map(|step| store.step(step));
    assert_eq!(last, [TAKEN, TAKEN, Err(Refusal::TooFarBehind)]);
    let take = Step::TakeBroadcast { card: 1 };
    assert_eq!([take, dispatch].map(|step| store.step(step)), [TAKEN; 2]);
    assert_eq!(behind(&store), MAX_BEHIND);
}

/// RULES 2.2 and 2.5: one below the top and 3 more, by either sum; each is told what it found.
#[test]
fn a_counter_at_the_top() {
    let sums = [
        (Function::AddStaysAtTheTop, 4_294_967_295),
        (Function::AddComesRound, 1),
    ];
    for (function, expected) in sums {
        let mut store = Store::start(SMALLEST).expect("a placement");
        let mut operation = |request| {
            let steps = [request, Step::Perform { task: 0 }, Step::Report { task: 0 }];
            steps.map(|step| store.step(step).expect("a step taken"))[2]
        };
        let (task, register) = (0, 0);
        let below = 4_294_967_294;
        for (function, operand, found) in [(Function::Set, below, 0), (function, 3, below)] {
            let update = operation(Step::RequestUpdate {
                task,
                register,
                function,
                operand,
            });
            assert_eq!(update.value, found, "{function}");
        }
        let read = operation(Step::RequestRead { task, register });
        assert_eq!(read.value, expected, "{function}");
    }
}

#[test]
fn a_clone_is_a_store_of_its_own() {
    let first = Store::start(SMALLEST).expect("a placement");
    let mut second = first.clone();
    let request = Step::RequestRead {
        task: 0,
        register: 0,
    };
    assert_eq!(second.step(request), TAKEN);
    assert_eq!((first.requests(), second.requests()), (0, 1));
    assert!(first != second);
    let (registers, channel) = second.words();
    assert!(Store::from_words(registers, channel) == second);
}

#[test]
fn any_words_are_safe() {
    let mut unstarted = Store::unstarted();
    let before = unstarted.clone();
    let mut tally = Tally {
        taken: 1,
        refused: u32::MAX - 1,
    };
    for _ in 0..3 {
        let answer = unstarted.step_bytes_counted(0, [0; 8], &mut tally);
        assert_eq!(answer, Err(Refusal::IllSized));
    }
    assert_eq!((tally.taken, tally.refused), (1, u32::MAX));
    assert_eq!((unstarted.copy(0, 0), unstarted.requests()), (0, 0));
    assert!(unstarted == before);
    for word in [0, 1, 2, 8, 9, 255, 65_536, u32::MAX] {
        let mut store = Store::from_words(&[word; REGISTERS_WORDS], &[word; CHANNEL_WORDS]);
        let words = store.clone();
        assert_eq!(store.step_bytes(0, [0; 8]), Err(Refusal::IllSized));
        assert!(store == words);
        for code in 0..=11 {
            for first in [0, 1, 7, 15, 255] {
                // What it answers means nothing.
                let _ = store.advance_bytes(code, [first, 0, 0, 0, 0, 0, 0, 0]);
            }
        }
        for number in [0, 1, 8, 16, 32, 255] {
            store.copy(number, number);
            store.copies(number);
            store.task(number);
            store.broadcasts_taken(number);
        }
    }
}

#[test]
fn stores_go_to_other_threads() {
    let mut store = Store::start_from_file(&K9).expect("an accepted file");
    let play = || {
        for (k, (code, argument)) in k9_steps().enumerate() {
            assert_eq!(store.step_bytes(code, argument), k9_answer(k));
        }
        store
    };
    let store = std::thread::spawn(play).join().expect("a thread");
    std::thread::scope(|scope| {
        let reads = [(); 4].map(|()| scope.spawn(|| store.copy(1, 1)));
        assert_eq!(reads.map(|read| read.join().expect("a thread")), [9; 4]);
    });
}
