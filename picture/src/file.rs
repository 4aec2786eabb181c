//! The parts of a run file that the library accepted (RULES 3.1).

/// Its tables, where they lie in the file.
#[derive(Clone, Copy)]
pub struct RunFile<'a> {
    pub cards: u8,
    /// The home card of each task.
    pub homes: &'a [u8],
    /// The holders of each register, as a set (RULES 1.5).
    pub copies: &'a [u8],
    pub primaries: &'a [u8],
    codes: &'a [u8],
    arguments: &'a [u8],
}

impl<'a> RunFile<'a> {
    /// Of an accepted file, whose length is right.
    pub fn of_accepted(file: &'a [u8]) -> RunFile<'a> {
        let (registers, tasks) = (usize::from(file[1]), usize::from(file[2]));
        let steps = usize::from(u16::from_le_bytes([file[3], file[4]]));
        let (homes, rest) = file[5..].split_at(tasks);
        let (copies, rest) = rest.split_at(registers);
        let (primaries, rest) = rest.split_at(registers);
        let (codes, arguments) = rest.split_at(steps);
        RunFile {
            cards: file[0],
            homes,
            copies,
            primaries,
            codes,
            arguments,
        }
    }

    /// Code and argument of each step.
    pub fn steps(&self) -> impl Iterator<Item = (u8, [u8; 8])> + 'a {
        let arguments = self.arguments.chunks_exact(8);
        let arguments = arguments.map(|bytes| bytes.try_into().expect("eight bytes"));
        self.codes.iter().copied().zip(arguments)
    }

    /// The registers of which a card holds a copy, by rising number.
    pub fn held_by(&self, card: u8) -> impl Iterator<Item = u8> + 'a {
        let registers = (0..).zip(self.copies);
        registers.filter_map(move |(register, &set)| in_set(set, card).then_some(register))
    }
}

/// Whether a card is in a set (RULES 1.5).
pub fn in_set(set: u8, card: u8) -> bool {
    set >> card & 1 == 1
}

/// The cards of a set, by rising number.
pub fn cards_of(set: u8) -> impl Iterator<Item = u8> {
    (0..8).filter(move |&card| in_set(set, card))
}
