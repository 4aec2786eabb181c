//! Loads (RULES 17): the example in every room, loads drawn here beside those of the library, what
//! a run makes of them, and every refusal in its order.

use gondzselu::{answer, load, write, Function, Placement, Refusal, Step, Steps, Store};
use gondzselu::{LONGEST_ANSWER, LONGEST_FILE, MAX_STEPS};

/// RULES 17.8.
const EXAMPLE: [u8; 38] = [
    2, 2, 2, 3, 0, 0, 1, 3, 2, 0, 1, 2, 3, 6, 0, 1, 2, 0, 0x8D, 0xB7, 0, 0, 1, 0, 0, 0, 0, 0, 0, 0,
    0, 0, 0, 0, 0, 0, 0, 0,
];
const PLACE: Placement<'_> = Placement {
    cards: 2,
    homes: &[0, 1],
    copies: &[3, 2],
    primaries: &[0, 1],
};
const SMALLEST: Placement<'_> = Placement {
    cards: 1,
    homes: &[0],
    copies: &[1],
    primaries: &[0],
};
const K9: Placement<'_> = Placement {
    cards: 3,
    homes: &[0, 1, 2],
    copies: &[0b111, 0b010],
    primaries: &[0, 1],
};
const LARGEST: Placement<'_> = Placement {
    cards: 8,
    homes: &[0, 1, 2, 3, 4, 5, 6, 7, 7, 6, 5, 4, 3, 2, 1, 0],
    copies: &[0xFF; 32],
    primaries: &[7; 32],
};
const SEEDS: [u32; 6] = [0, 1, 2, 2026, 0x8000_0000, u32::MAX];

/// What lies in a lent output before.
const FILL: u8 = 0xEE;

/// The load in so many bytes; all others are looked at, whether they are as they were.
fn lent(seed: u32, place: Placement<'_>, steps: usize, room: usize) -> Result<Vec<u8>, Refusal> {
    let mut output = vec![FILL; room + 3];
    let drawn = load(seed, place, steps, &mut output[..room]);
    let length = *drawn.as_ref().unwrap_or(&0);
    assert!(length <= room && output[length..].iter().all(|&byte| byte == FILL));
    output.truncate(length);
    drawn.map(|_| output)
}

/// The draws of a seed (RULES 17.2).
struct Draws(u32);

impl Draws {
    fn next(&mut self) -> u32 {
        self.0 = self.0.wrapping_mul(1_664_525).wrapping_add(1_013_904_223);
        self.0 / 65_536
    }

    fn below(&mut self, limit: usize) -> u8 {
        (self.next() % limit as u32) as u8
    }

    /// RULES 17.3. Fields are drawn in the order in which they are written here.
    fn step(&mut self, place: Placement<'_>) -> Step {
        let [cards, tasks] = [place.cards.into(), place.homes.len()];
        let registers = place.copies.len();
        match 1 + self.below(10) {
            1 => Step::RequestRead {
                task: self.below(tasks),
                register: self.below(registers),
            },
            2 => Step::RequestUpdate {
                task: self.below(tasks),
                register: self.below(registers),
                function: [
                    Function::Set,
                    Function::AddStaysAtTheTop,
                    Function::Larger,
                    Function::Or,
                    Function::AddComesRound,
                ][usize::from(self.below(5))],
                operand: self.next(),
            },
            3 => Step::Perform {
                task: self.below(tasks),
            },
            4 => Step::SendRead {
                task: self.below(tasks),
                card: self.below(cards),
            },
            5 => Step::SendUpdate {
                task: self.below(tasks),
            },
            6 => Step::Dispatch {
                card: self.below(cards),
            },
            7 => Step::TakeBroadcast {
                card: self.below(cards),
            },
            8 => Step::TakeSingle {
                task: self.below(tasks),
            },
            9 => Step::Deliver {
                card: self.below(cards),
            },
            _ => Step::Report {
                task: self.below(tasks),
            },
        }
    }
}

#[test]
fn the_example_of_the_rules() {
    assert_eq!(lent(2, PLACE, 3, LONGEST_FILE), Ok(EXAMPLE.to_vec()));
    let mut draws = Draws(2);
    let first = [0; 9].map(|_| draws.next());
    let rules = [
        15_521, 30_144, 12_383, 48_621, 46_989, 7_682, 13_487, 30_955, 34_420,
    ];
    assert_eq!(first, rules);
}

#[test]
fn the_example_in_every_room() {
    for room in 0..=42 {
        let wanted = if room < 38 {
            Err(Refusal::OutputTooShort)
        } else {
            Ok(EXAMPLE.to_vec())
        };
        assert_eq!(lent(2, PLACE, 3, room), wanted, "{room} bytes");
    }
}

/// The file that is written from steps drawn here, byte for byte.
#[test]
fn drawn_and_written() {
    let mut steps = Steps::<MAX_STEPS>::new();
    let mut file = vec![FILL; LONGEST_FILE];
    for place in [SMALLEST, PLACE, K9, LARGEST] {
        for seed in SEEDS {
            for number in [0, 1, 2, 255, 256, 257, MAX_STEPS] {
                let mut draws = Draws(seed);
                steps.clear();
                for _ in 0..number {
                    steps.push(draws.step(place)).expect("room");
                }
                let length = write(place, &steps, &mut file).expect("an accepted placement");
                let wanted = Ok(file[..length].to_vec());
                assert!(lent(seed, place, number, LONGEST_FILE) == wanted);
                assert!(lent(seed, place, number, length) == wanted);
                let short = lent(seed, place, number, length - 1);
                assert_eq!(short, Err(Refusal::OutputTooShort));
            }
        }
    }
}

/// The reader accepts each load, and no step of it is refused with 10 to 15; one store that takes
/// the steps of many loads is in many states.
#[test]
fn no_step_is_wrong() {
    let mut answers = vec![FILL; LONGEST_ANSWER];
    for place in [SMALLEST, PLACE, K9, LARGEST] {
        let mut store = Store::start(place).expect("an accepted placement");
        for seed in SEEDS {
            let file = lent(seed, place, MAX_STEPS, LONGEST_FILE).expect("accepted");
            assert_eq!(answer(&file, &mut answers), Ok(LONGEST_ANSWER));
            let results = &answers[2..2 + MAX_STEPS];
            assert!(results.iter().all(|&result| right(result)));
            let steps = &file[5 + place.homes.len() + 2 * place.copies.len()..];
            let (codes, arguments) = steps.split_at(MAX_STEPS);
            let mut taken = 0;
            for (&code, argument) in codes.iter().zip(arguments.chunks_exact(8)) {
                let argument = argument.try_into().expect("eight bytes");
                match store.step_bytes(code, argument) {
                    Ok(_) => taken += 1,
                    Err(refusal) => assert!(right(refusal.number()), "{refusal}"),
                }
            }
            assert!(taken > 0);
        }
    }
}

fn right(result: u8) -> bool {
    !(1..20).contains(&result)
}

/// 3 comes before 4, and both before 5.
#[test]
fn refused() {
    let [table, misplaced] = [[0; 257], [9; 257]];
    let sizes = [
        ("no cards", Placement { cards: 0, ..K9 }, 3),
        ("nine cards", Placement { cards: 9, ..K9 }, 3),
        ("255 cards", Placement { cards: 255, ..K9 }, 3),
        ("no tasks", homes(&[]), 3),
        ("17 tasks", homes(&table[..17]), 3),
        ("257 tasks", homes(&table), 3),
        ("no registers", registers(&[], &[]), 3),
        ("33 registers", registers(&[1; 33], &table[..33]), 3),
        ("257 registers", registers(&[1; 257], &table), 3),
        ("a primary too few", registers(&[7, 2], &[0]), 3),
        ("a primary too many", registers(&[7, 2], &[0, 1, 0]), 3),
        ("256 primaries too many", registers(&[7], &table), 3),
        ("misplaced, 17 tasks", homes(&misplaced[..17]), 3),
        ("misplaced, unequal", registers(&[7, 0], &[0]), 3),
        ("a home on an absent card", homes(&[0, 1, 3]), 4),
        ("no copy", registers(&[7, 0], &[0, 1]), 4),
        ("a copy on an absent card", registers(&[7, 10], &[0, 1]), 4),
        ("a primary without a copy", registers(&[7, 2], &[0, 2]), 4),
        ("an absent primary", registers(&[7, 2], &[0, 3]), 4),
        ("a primary past every set", registers(&[7, 2], &[0, 9]), 4),
    ];
    for (what, place, refusal) in sizes {
        for steps in [0, 3, 4_096, 4_097, 65_536, usize::MAX] {
            let first = if steps > MAX_STEPS { 3 } else { refusal };
            for room in [0, 1, LONGEST_FILE] {
                let given = lent(2026, place, steps, room).map_err(Refusal::number);
                assert_eq!(given, Err(first), "{what}, {steps} steps, {room} bytes");
            }
        }
    }
    let many = lent(2026, K9, MAX_STEPS + 1, LONGEST_FILE);
    assert_eq!(many, Err(Refusal::SizeOutOfRange));
}

fn homes(homes: &[u8]) -> Placement<'_> {
    Placement { homes, ..K9 }
}

fn registers<'a>(copies: &'a [u8], primaries: &'a [u8]) -> Placement<'a> {
    Placement {
        copies,
        primaries,
        ..K9
    }
}
