//! A row, and the rows of a store in the making.

use crate::memory::{self, Field, Words};

/// One word of a memory, and whether the store is well sized with each of some numbers in it.
pub struct Row {
    pub name: String,
    pub channel: bool,
    pub at: usize,
    pub values: Vec<(u32, bool)>,
}

impl Row {
    /// The words with this number in the row's one.
    pub fn with(&self, words: &Words, value: u32) -> Words {
        let mut changed = words.clone();
        match self.channel {
            true => changed.channel[self.at] = value,
            false => changed.registers[self.at] = value,
        }
        changed
    }
}

pub const MOST: u32 = u32::MAX;

/// The rows of a store in the making.
pub struct Rows<'a> {
    pub words: &'a Words,
    pub rows: Vec<Row>,
}

impl Rows<'_> {
    pub fn new(words: &Words) -> Rows<'_> {
        Rows {
            words,
            rows: Vec::new(),
        }
    }

    /// How many cards, tasks and registers the store has.
    pub fn sizes(&self) -> [u32; 3] {
        [memory::CARDS, memory::TASKS, memory::REGISTERS].map(|at| self.words.channel[at])
    }

    pub fn word(&mut self, name: &str, channel: bool, at: usize, values: &[(u32, bool)]) {
        self.rows.push(Row {
            name: name.into(),
            channel,
            at,
            values: values.to_vec(),
        });
    }

    /// Numbers in one field of a packed word, with others in some of its fields.
    pub fn field(
        &mut self,
        (name, channel, at): (&str, bool, usize),
        others: &[(Field, u32)],
        field: Field,
        values: impl IntoIterator<Item = (u32, bool)>,
    ) {
        let mut word = match channel {
            true => self.words.channel[at],
            false => self.words.registers[at],
        };
        let mut name = format!("{name}, {}", field.name);
        for &(field, number) in others {
            word = field.put(word, number);
            name += &format!(", {} {number}", field.name);
        }
        let values = values
            .into_iter()
            .map(|(number, fine)| (field.put(word, number), fine));
        self.rows.push(Row {
            name,
            channel,
            at,
            values: values.collect(),
        });
    }
}

/// The first and last of so many, and the first past them and the largest number, as far as the
/// field can have those.
pub fn below(size: u32, field: Field) -> Vec<(u32, bool)> {
    let mut numbers = vec![0, size - 1, size, size + 1, field.most()];
    numbers.retain(|&number| number <= field.most());
    numbers.dedup();
    numbers
        .into_iter()
        .map(|number| (number, number < size))
        .collect()
}

/// No card, some that are present, one that is absent, and more of them; whether there may be
/// none, one or more.
pub fn sets(cards: u32, field: Field, [none, one, more]: [bool; 3]) -> Vec<(u32, bool)> {
    let absent = 1 << cards;
    vec![
        (0, none),
        (1, one),
        (absent / 2, one),
        (3, more),
        (absent - 1, more),
        (absent, false),
        (absent + 1, false),
        (256, false),
        (257, false),
        (65_536, false),
        (field.most() - (absent - 1), false),
        (field.most(), false),
    ]
}
