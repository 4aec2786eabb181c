//! Texts to try a reader of words on, made from what `view` prints: some say the same in other
//! words, most are spoiled in a line or two.

use crate::random::Random;

#[derive(Clone, Copy, Debug, PartialEq, Eq)]
pub enum Way {
    WordDropped,
    WordDoubled,
    WordBorrowed,
    NumberChanged,
    PlacementChanged,
    LineDropped,
    LineDoubled,
    LinesSwapped,
    LineAdded,
    ByteChanged,
    ByteAdded,
    Glued,
    UpperCase,
    Lengthened,
    Cut,
}

pub const WAYS: [Way; 15] = [
    Way::WordDropped,
    Way::WordDoubled,
    Way::WordBorrowed,
    Way::NumberChanged,
    Way::PlacementChanged,
    Way::LineDropped,
    Way::LineDoubled,
    Way::LinesSwapped,
    Way::LineAdded,
    Way::ByteChanged,
    Way::ByteAdded,
    Way::Glued,
    Way::UpperCase,
    Way::Lengthened,
    Way::Cut,
];

/// At and past what a number may be, and near what the sizes may be.
const NUMBERS: [&str; 24] = [
    "0",
    "1",
    "2",
    "3",
    "7",
    "8",
    "9",
    "15",
    "16",
    "17",
    "31",
    "32",
    "33",
    "255",
    "256",
    "257",
    "4095",
    "4096",
    "65536",
    "4294967295",
    "4294967296",
    "4294967297",
    "007",
    "00000000000001",
];

/// Bytes that a reader may take for others.
const BYTES: &[u8] = b"0189 \t,\r\n\n;:xX/+-.\0\x0B\x0C\x7F\xA0\xFF";

/// What `view` prints, with some left out, then mostly spoiled.
pub fn spoiled(text: &str, random: &mut Random) -> Vec<u8> {
    let mut lines = left_out(text, random);
    let mut more = random.percent(85);
    while more {
        let way = random.pick(&WAYS);
        spoil(&mut lines, way, random);
        more = random.percent(30);
    }
    let end: &[u8] = random.pick(&[b"\n", b"\n", b"\n", b"\r\n", b"\n\n", b"\n, \n"]);
    let mut text = lines.join(end);
    if random.percent(50) {
        text.extend(end);
    }
    text
}

type Line = Vec<u8>;

/// Its lines without the numbers of steps, the answers, the counts, the sizes but the cards: each
/// of these, or none.
fn left_out(text: &str, random: &mut Random) -> Vec<Line> {
    let [numbers, answers, counts, sizes] = [(); 4].map(|()| random.percent(40));
    let line = |line: &str| -> Option<String> {
        if line.starts_with("cards") {
            let end = line.find(',').filter(|_| sizes);
            return Some(line[..end.unwrap_or(line.len())].to_string());
        }
        if line.starts_with("taken") {
            return (!counts).then(|| line.to_string());
        }
        let mut asked = line;
        if answers {
            let ends = ["taken", "held", "refused"].map(|word| line.find(word));
            let end = ends.into_iter().flatten().min();
            asked = &line[..end.unwrap_or(line.len())];
        }
        if numbers {
            asked = asked.trim_start_matches(|c: char| c == ' ' || c.is_ascii_digit());
        }
        Some(asked.to_string())
    };
    text.lines().filter_map(line).map(Line::from).collect()
}

/// The number of a line with a word, half of the time not that of a step.
fn some(lines: &[Line], random: &mut Random) -> Option<usize> {
    let placement = random.percent(50);
    let first = |line: &Line| line.first().is_some_and(u8::is_ascii_lowercase);
    let fits = |line: &&Line| !line.is_empty() && (!placement || first(line));
    let fitting = lines.iter().filter(fits).count();
    let nth = random.between(0, fitting.checked_sub(1)?);
    let mut numbers = (0..lines.len()).filter(|&number| fits(&&lines[number]));
    numbers.nth(nth)
}

fn words(line: &[u8]) -> Vec<Line> {
    let words = line.split(|byte| b" ,".contains(byte));
    words
        .filter(|word| !word.is_empty())
        .map(<[u8]>::to_vec)
        .collect()
}

/// Changes the words of a line, if it has any.
fn change(line: &mut Line, random: &mut Random, to: impl Fn(&mut Vec<Line>, usize, &mut Random)) {
    let mut all = words(line);
    if let Some(last) = all.len().checked_sub(1) {
        let at = random.between(0, last);
        to(&mut all, at, random);
        *line = all.join(&b' ');
    }
}

fn spoil(lines: &mut Vec<Line>, way: Way, random: &mut Random) {
    let Some(at) = some(lines, random) else {
        return;
    };
    match way {
        Way::WordDropped => change(&mut lines[at], random, |words, at, _| {
            words.remove(at);
        }),
        Way::WordDoubled => change(&mut lines[at], random, |words, at, _| {
            words.insert(at, words[at].clone());
        }),
        Way::WordBorrowed => {
            let from = random.between(0, lines.len() - 1);
            let others = words(&lines[from]);
            change(&mut lines[at], random, |words, at, random| {
                if !others.is_empty() {
                    words[at] = others[random.between(0, others.len() - 1)].clone();
                }
            });
        }
        Way::NumberChanged => change(&mut lines[at], random, |words, at, random| {
            number_changed(words, at, random)
        }),
        Way::PlacementChanged => placement_changed(lines, random),
        Way::LineDropped => {
            lines.remove(at);
        }
        Way::LineDoubled => lines.insert(at, lines[at].clone()),
        Way::LinesSwapped => {
            let other = random.between(0, lines.len() - 1);
            lines.swap(at, other);
        }
        Way::LineAdded => line_added(lines, at, random),
        Way::ByteChanged => {
            let byte = random.between(0, lines[at].len() - 1);
            lines[at][byte] = random.pick(BYTES);
        }
        Way::ByteAdded => {
            let byte = random.between(0, lines[at].len());
            lines[at].insert(byte, random.pick(BYTES));
        }
        Way::Glued => change(&mut lines[at], random, |words, at, _| {
            if at + 1 < words.len() {
                let next = words.remove(at + 1);
                words[at].extend(next);
            }
        }),
        Way::UpperCase => change(&mut lines[at], random, |words, at, _| {
            words[at].make_ascii_uppercase();
        }),
        Way::Lengthened => {
            let length = random.pick(&[254, 255, 255, 256, 256, 257, 300]);
            let line = &mut lines[at];
            line.resize(length.max(line.len()), b' ');
        }
        Way::Cut => {
            lines.truncate(at + 1);
            let length = random.between(0, lines[at].len());
            lines[at].truncate(length);
        }
    }
}

/// Another number for one of a line, the one from a place on.
fn number_changed(words: &mut [Line], at: usize, random: &mut Random) {
    let digits = |word: &Line| word.iter().all(u8::is_ascii_digit);
    let mut numbers = (at..words.len()).chain(0..at);
    if let Some(number) = numbers.find(|&number| digits(&words[number])) {
        words[number] = random.pick(&NUMBERS).into();
    }
}

/// Another number of cards, home, primary or holder.
fn placement_changed(lines: &mut [Line], random: &mut Random) {
    let name: &[u8] = random.pick(&[b"cards", b"task", b"register"]);
    let of = |line: &&mut Line| line.starts_with(name);
    let count = lines.iter().filter(|line| line.starts_with(name)).count();
    let nth = random.between(0, count.max(1) - 1);
    let Some(line) = lines.iter_mut().filter(of).nth(nth) else {
        return;
    };
    let mut all = words(line);
    let number = match name {
        b"cards" => 1,
        b"task" => 4,
        _ => random.pick(&[4, 7, 8]),
    };
    match all.get_mut(number) {
        Some(word) => *word = random.byte(0, 9).to_string().into(),
        None => all.truncate(7),
    }
    *line = all.join(&b' ');
}

/// A line of some part: the next task or register behind the last, or any before this one.
fn line_added(lines: &mut Vec<Line>, at: usize, random: &mut Random) {
    let next = |name: &[u8]| {
        let of = |line: &Line| line.starts_with(name);
        let count = lines.iter().filter(|line| of(line)).count();
        let behind = lines.iter().rposition(of).map_or(at, |last| last + 1);
        (count, behind)
    };
    let (tasks, behind_tasks) = next(b"task ");
    let (registers, behind_registers) = next(b"register ");
    let (line, place) = match random.between(0, 6) {
        0 | 1 => (format!("task {tasks} home card 0"), behind_tasks),
        2 | 3 => {
            let line = format!("register {registers} primary card 0 copies on 0");
            (line, behind_registers)
        }
        4 => ("cards 1".to_string(), at),
        5 => ("taken 0 refused 0".to_string(), at),
        _ => ("report task 0".to_string(), at),
    };
    lines.insert(place, line.into());
}

#[cfg(test)]
mod tests {
    use super::*;
    use crate::compose::compose;
    use crate::named;
    use crate::view::view;

    fn k9() -> Vec<u8> {
        let mut runs = named::runs().into_iter();
        runs.find(|run| run.name == "K9").expect("a named run").file
    }

    /// What is left out changes nothing.
    #[test]
    fn less_says_the_same() {
        let file = k9();
        for item in 0..100 {
            let lines = left_out(&view(&file), &mut Random::new(1, item));
            assert_eq!(compose(&lines.join(&b'\n')).as_ref(), Ok(&file), "{item}");
        }
    }

    #[test]
    fn each_way_spoils() {
        for way in WAYS {
            let refused = (0..400).filter(|&item| {
                let mut random = Random::new(2, item);
                let mut lines = left_out(&view(&k9()), &mut random);
                spoil(&mut lines, way, &mut random);
                compose(&lines.join(&b'\n')).is_err()
            });
            let refused = refused.count();
            assert!(refused >= 100, "{way:?} {refused}");
        }
    }
}
