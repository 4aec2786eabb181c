//! Run files from tables (RULES 3, 8): sizes at both ends, every refusal and their order, what is
//! left as it was, and that reader and writer agree.

use gondzselu::{answer, write_bytes, Placement, Refusal, LONGEST_ANSWER, LONGEST_FILE};
use gondzselu::{MAX_CARDS, MAX_REGISTERS, MAX_STEPS, MAX_TASKS};

const K9: [u8; 156] = *include_bytes!("../../../examples/k9.run");

/// What lies in a lent output before.
const FILL: u8 = 0xEE;

/// What a panel has in tables.
#[derive(Clone)]
struct Tables {
    cards: u8,
    homes: Vec<u8>,
    copies: Vec<u8>,
    primaries: Vec<u8>,
    codes: Vec<u8>,
    arguments: Vec<u8>,
}

impl Tables {
    /// All cards hold all registers; the steps are of code 0.
    fn sized(cards: usize, registers: usize, tasks: usize, steps: usize) -> Tables {
        Tables {
            cards: cards as u8,
            homes: vec![0; tasks],
            copies: vec![((1u32 << cards) - 1) as u8; registers],
            primaries: vec![0; registers],
            codes: vec![0; steps],
            arguments: vec![0; 8 * steps],
        }
    }

    /// Of a file that is long enough for its sizes (RULES 3.1).
    fn of(file: &[u8]) -> Tables {
        let steps = usize::from(u16::from_le_bytes([file[3], file[4]]));
        let mut rest = &file[5..];
        let mut part = |length: usize| {
            let (part, after) = rest.split_at(length);
            rest = after;
            part.to_vec()
        };
        let (registers, tasks) = (usize::from(file[1]), usize::from(file[2]));
        Tables {
            cards: file[0],
            homes: part(tasks),
            copies: part(registers),
            primaries: part(registers),
            codes: part(steps),
            arguments: part(8 * steps),
        }
    }

    /// The file of tables whose sizes fit its first five bytes, right or wrong.
    fn file(&self) -> Vec<u8> {
        let [low, high] = (self.codes.len() as u16).to_le_bytes();
        let (registers, tasks) = (self.copies.len() as u8, self.homes.len() as u8);
        let mut file = vec![self.cards, registers, tasks, low, high];
        for part in [&self.homes, &self.copies, &self.primaries, &self.codes] {
            file.extend(part);
        }
        file.extend(&self.arguments);
        file
    }

    /// Writes into so many bytes, and looks that all others are as they were.
    fn write(&self, room: usize) -> Result<Vec<u8>, Refusal> {
        let place = Placement {
            cards: self.cards,
            homes: &self.homes,
            copies: &self.copies,
            primaries: &self.primaries,
        };
        let mut output = vec![FILL; room + 3];
        let written = write_bytes(place, &self.codes, &self.arguments, &mut output[..room]);
        let length = *written.as_ref().unwrap_or(&0);
        assert!(length <= room && output[length..].iter().all(|&byte| byte == FILL));
        output.truncate(length);
        written.map(|_| output)
    }

    /// Refused so in every room: neither an output that is long enough nor one without a byte
    /// changes it.
    fn refused(&self, refusal: Refusal, what: &str) {
        for room in [LONGEST_FILE + 100, self.file().len(), 1, 0] {
            assert_eq!(self.write(room), Err(refusal), "{what}, {room} bytes");
        }
    }
}

#[test]
fn sizes_end_where_the_limits_say() {
    let (c, r, t, n) = (MAX_CARDS, MAX_REGISTERS, MAX_TASKS, MAX_STEPS);
    for (cards, registers, tasks, steps) in [(c, r, t, n), (1, 1, 1, 0), (c, 1, t, 1), (1, r, 1, n)]
    {
        let tables = Tables::sized(cards, registers, tasks, steps);
        let file = tables.file();
        assert_eq!(tables.write(LONGEST_FILE), Ok(file.clone()));
        assert_eq!(tables.write(file.len()), Ok(file.clone()));
        let short = tables.write(file.len() - 1);
        assert_eq!(short, Err(Refusal::OutputTooShort));
    }
    assert_eq!(Tables::sized(c, r, t, n).file().len(), LONGEST_FILE);
    for (cards, registers, tasks, steps) in [
        (0, r, t, n),
        (c + 1, r, t, n),
        (255, 1, 1, 1),
        (c, 0, t, n),
        (c, r + 1, t, n),
        (c, 256, t, n),
        (c, r, 0, n),
        (c, r, t + 1, n),
        (c, r, 257, n),
        (c, r, t, n + 1),
        (c, r, t, 65_536),
    ] {
        let mut tables = Tables::sized(cards.min(30), registers, tasks, steps);
        tables.cards = cards as u8;
        let what = format!("{cards} cards, {registers} registers, {tasks} tasks, {steps} steps");
        tables.refused(Refusal::SizeOutOfRange, &what);
    }
}

#[test]
fn tables_of_unequal_length() {
    let k9 = Tables::of(&K9);
    // All sizes are judged before the placement: a register without a copy does not come first.
    let mut misplaced = k9.clone();
    misplaced.copies[0] = 0;
    for good in [k9, misplaced] {
        for primaries in [0, 1, 3, 32] {
            let mut tables = good.clone();
            tables.primaries.resize(primaries, 0);
            let what = format!("{primaries} primaries for 2 registers");
            tables.refused(Refusal::SizeOutOfRange, &what);
        }
        for bytes in [0, 8, 15 * 8, 16 * 8 - 1, 16 * 8 + 1, 17 * 8, 16] {
            let mut tables = good.clone();
            tables.arguments.resize(bytes, 0);
            let what = format!("{bytes} bytes of arguments for 16 steps");
            tables.refused(Refusal::SizeOutOfRange, &what);
        }
        let mut tables = good.clone();
        tables.codes.clear();
        tables.refused(Refusal::SizeOutOfRange, "no codes for 16 arguments");
        tables = good;
        tables.codes.resize(MAX_STEPS + 1, 0);
        tables.arguments.resize(8 * (MAX_STEPS + 1), 0);
        tables.refused(Refusal::SizeOutOfRange, "a step too many");
    }
}

/// RULES 8.2, each at the last task or register.
#[test]
fn misplaced() {
    for (what, homes, copies, primaries) in [
        ("no copy", [0, 1, 2], [7, 0], [0, 1]),
        ("a copy on an absent card", [0, 1, 2], [7, 8 + 2], [0, 1]),
        ("all copies on absent cards", [0, 1, 2], [7, 8], [0, 3]),
        ("a home on an absent card", [0, 1, 3], [7, 2], [0, 1]),
        ("a primary without a copy", [0, 1, 2], [7, 2], [0, 2]),
        ("an absent primary", [0, 1, 2], [7, 2], [0, 3]),
        ("a primary past every set", [0, 1, 2], [7, 2], [0, 9]),
    ] {
        let mut tables = Tables::of(&K9);
        tables.homes = homes.to_vec();
        tables.copies = copies.to_vec();
        tables.primaries = primaries.to_vec();
        tables.refused(Refusal::Misplaced, what);
    }
}

/// Numbers that look random and are the same in every run.
struct Numbers(u64);

impl Numbers {
    fn below(&mut self, limit: usize) -> usize {
        self.0 = self
            .0
            .wrapping_mul(6_364_136_223_846_793_005)
            .wrapping_add(1);
        (self.0 >> 33) as usize % limit
    }

    fn bytes(&mut self, length: usize, limit: usize) -> Vec<u8> {
        (0..length).map(|_| self.below(limit) as u8).collect()
    }

    /// Few of everything, with sizes about both ends and with homes and copies that mostly fit.
    fn tables(&mut self) -> Tables {
        let cards = self.below(10);
        let (registers, tasks) = ([1, 2, 33, 0][self.below(4)], [1, 3, 17, 0][self.below(4)]);
        let steps = self.below(4);
        let fit = [cards.max(1), cards + 1][usize::from(self.below(8) == 0)];
        let mut tables = Tables {
            cards: cards as u8,
            homes: self.bytes(tasks, fit),
            copies: self.bytes(registers, 1 << fit.min(8)),
            primaries: vec![0; registers],
            codes: self.bytes(steps, 256),
            arguments: self.bytes(8 * steps, 256),
        };
        // The first holder, mostly.
        for (primary, copies) in tables.primaries.iter_mut().zip(&tables.copies) {
            *primary = copies.trailing_zeros() as u8 + u8::from(self.below(8) == 0);
        }
        tables
    }
}

/// Tables are refused as the file that they make is refused; where the reader accepts the file,
/// it is what is written.
#[test]
fn the_reader_agrees() {
    let mut numbers = Numbers(6_000);
    let mut answers = vec![0; LONGEST_ANSWER];
    let mut seen = [0; 5];
    for _ in 0..20_000 {
        let tables = numbers.tables();
        let file = tables.file();
        let read = answer(&file, &mut answers);
        let written = tables.write(file.len());
        match read {
            Ok(_) => assert_eq!(written, Ok(file)),
            Err(refusal) => assert_eq!(written, Err(refusal), "{file:?}"),
        }
        seen[read.map_or_else(|refusal| usize::from(refusal.number()), |_| 0)] += 1;
    }
    let [accepted, 0, 0, sizes, misplaced] = seen else {
        panic!("{seen:?}");
    };
    assert!(accepted > 500 && sizes > 500 && misplaced > 500, "{seen:?}");
}

#[test]
fn what_is_accepted_is_written_again() {
    let mut longest = Tables::sized(8, 32, 16, 4096).file();
    for (k, byte) in longest[85..].iter_mut().enumerate() {
        *byte = (k % 251) as u8;
    }
    let files: [&[u8]; 5] = [
        &[1, 1, 1, 0, 0, 0, 1, 0],
        include_bytes!("../../../examples/k2.run"),
        include_bytes!("../../../examples/counter.run"),
        &K9,
        &longest,
    ];
    let mut answers = vec![0; LONGEST_ANSWER];
    for file in files {
        assert!(answer(file, &mut answers).is_ok());
        let written = Tables::of(file).write(LONGEST_FILE);
        assert!(written.as_deref() == Ok(file), "{} bytes", file.len());
    }
}
