//! Totals of logs (RULES 16): the example, every card number at every place, lists of unequal
//! length, long logs, and the log of a run, whose total is the value of the primary's copy.

use gondzselu::{total, total_by_card, Function, Placement, Refusal, Step, Store};

/// What both readings give, which is the same.
fn both(cards: &[u8], operands: &[u32]) -> Result<u32, Refusal> {
    let given = total(cards, operands);
    assert_eq!(total_by_card(cards, operands), given);
    given
}

/// Numbers that look random and are the same in every run.
struct Numbers(u64);

impl Numbers {
    fn next(&mut self) -> u32 {
        self.0 = self
            .0
            .wrapping_mul(6_364_136_223_846_793_005)
            .wrapping_add(1);
        (self.0 >> 32) as u32
    }

    /// A log of so many entries, its cards below a limit.
    fn log(&mut self, entries: usize, limit: u32) -> (Vec<u8>, Vec<u32>) {
        let cards = (0..entries).map(|_| (self.next() % limit) as u8).collect();
        (cards, (0..entries).map(|_| self.next()).collect())
    }
}

fn sum(operands: &[u32]) -> u32 {
    let sum: u64 = operands.iter().map(|&operand| u64::from(operand)).sum();
    sum as u32
}

#[test]
fn the_example_of_the_rules() {
    let (cards, operands) = ([2, 0, 2], [4_294_967_295, 3, 5]);
    for (entries, expected) in [0, 4_294_967_295, 2, 7].into_iter().enumerate() {
        let given = both(&cards[..entries], &operands[..entries]);
        assert_eq!(given, Ok(expected), "{entries} entries");
    }
}

#[test]
fn every_card_number_at_every_place() {
    let mut numbers = Numbers(16);
    for entries in 1..=17 {
        let (mut cards, operands) = numbers.log(entries, 8);
        let expected = sum(&operands);
        for place in 0..entries {
            let card = cards[place];
            for number in 0..=255 {
                cards[place] = number;
                let given = both(&cards, &operands);
                if number < 8 {
                    assert_eq!(given, Ok(expected), "card {number} at {place}");
                } else {
                    assert_eq!(given, Err(Refusal::AbsentCard), "card {number} at {place}");
                }
            }
            cards[place] = card;
        }
    }
}

/// Whatever the cards are: 3 comes before 14.
#[test]
fn lists_of_unequal_length() {
    let mut numbers = Numbers(3);
    for limit in [8, 256] {
        let (cards, operands) = numbers.log(40, limit);
        for entries in 0..=40 {
            for length in (0..=40).filter(|&length| length != entries) {
                let given = both(&cards[..entries], &operands[..length]);
                assert_eq!(given, Err(Refusal::SizeOutOfRange), "{entries}, {length}");
            }
        }
        // No length is cut.
        let (cards, operands) = numbers.log(65_536 + 40, limit);
        for apart in [256, 65_536] {
            for (entries, length) in [(apart + 40, 40), (40, apart + 40)] {
                let given = both(&cards[..entries], &operands[..length]);
                assert_eq!(given, Err(Refusal::SizeOutOfRange), "{entries}, {length}");
            }
        }
    }
}

/// Past every limit of a run: a log is as long as the caller likes.
#[test]
fn long_logs() {
    let mut numbers = Numbers(1);
    for entries in [255, 256, 257, 4_095, 4_096, 65_535, 65_536, 200_000] {
        let (mut cards, operands) = numbers.log(entries, 8);
        assert_eq!(both(&cards, &operands), Ok(sum(&operands)));
        // Only one card, and every operand at the top.
        let one = vec![7; entries];
        let top = vec![u32::MAX; entries];
        assert_eq!(both(&one, &top), Ok((entries as u32).wrapping_neg()));
        let last = entries - 1;
        cards[last] = 8;
        assert_eq!(both(&cards, &operands), Err(Refusal::AbsentCard));
        let shorter = both(&cards[..last], &operands[..last]);
        assert_eq!(shorter, Ok(sum(&operands[..last])));
    }
}

/// Task t lives on card t. Card 3 alone holds the register, or cards 0, 1 and 3 do, and card 3 is
/// the primary; each task's update runs to its end before the next one's.
#[test]
fn the_log_of_a_run() {
    for copies in [0b1000, 0b1011] {
        let place = Placement {
            cards: 4,
            homes: &[0, 1, 2, 3],
            copies: &[copies],
            primaries: &[3],
        };
        let mut store = Store::start(place).expect("a placement");
        let mut numbers = Numbers(9);
        let (cards, operands) = numbers.log(300, 4);
        for (entry, (&task, &operand)) in cards.iter().zip(&operands).enumerate() {
            let function = Function::AddComesRound;
            let register = 0;
            let request = Step::RequestUpdate {
                task,
                register,
                function,
                operand,
            };
            store.step(request).expect("a quiet task");
            let sent = store.step(Step::SendUpdate { task }).is_ok();
            assert_ne!(sent, store.step(Step::Perform { task }).is_ok());
            settle(&mut store);
            let found = store.step(Step::Report { task }).expect("a task done");
            let (before, now) = (entry, entry + 1);
            assert_eq!(both(&cards[..before], &operands[..before]), Ok(found.value));
            assert_eq!(both(&cards[..now], &operands[..now]), Ok(store.copy(3, 0)));
        }
    }
}

/// Until nothing moves.
fn settle(store: &mut Store) {
    let moves = |k: u8| {
        [
            Step::Dispatch { card: k },
            Step::TakeBroadcast { card: k },
            Step::TakeSingle { task: k },
            Step::Deliver { card: k },
        ]
    };
    let mut taken = 1;
    while taken > 0 {
        let every = (0..4).flat_map(moves);
        taken = every.filter(|&step| store.step(step).is_ok()).count();
    }
}
