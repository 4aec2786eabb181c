//! A strict reader of VCD files, of the part that docs/PICTURES.md has: wires in scopes, and values in binary,
//! as short as they can be and written only where they change.

use std::collections::BTreeMap;
use std::str::SplitAsciiWhitespace;

use super::waves::{Signal, Waves};

/// The widest signal.
const BITS: usize = 32;

struct Reader<'a> {
    words: SplitAsciiWhitespace<'a>,
    waves: Waves,
    /// By id: the signal's place.
    ids: BTreeMap<&'a str, usize>,
}

/// What the file has, or what is wrong with it.
pub fn read(text: &str) -> Result<Waves, String> {
    let good = |byte: u8| byte == b'\n' || (b' '..=b'~').contains(&byte);
    if !text.bytes().all(good) {
        return Err("a character that is no printable ASCII".into());
    }
    let mut reader = Reader {
        words: text.split_ascii_whitespace(),
        waves: Waves::default(),
        ids: BTreeMap::new(),
    };
    reader.header()?;
    reader.changes()?;
    Ok(reader.waves)
}

/// In decimal, without leading zeros.
fn number(word: &str) -> Option<usize> {
    let number: usize = word.parse().ok()?;
    (number.to_string() == word).then_some(number)
}

impl<'a> Reader<'a> {
    fn word(&mut self) -> Result<&'a str, String> {
        self.words.next().ok_or("the file ends too early".into())
    }

    /// The words of a keyword, without its `$end`.
    fn inside(&mut self) -> Result<Vec<&'a str>, String> {
        let mut words = Vec::new();
        loop {
            match self.word()? {
                "$end" => return Ok(words),
                word if word.starts_with('$') => return Err(format!("{word} before $end")),
                word => words.push(word),
            }
        }
    }

    fn header(&mut self) -> Result<(), String> {
        let (mut scopes, mut seen) = (Vec::new(), Vec::new());
        let mut timescale = false;
        loop {
            let keyword = self.word()?;
            let words = match keyword.starts_with('$') {
                true => self.inside()?,
                false => return Err(format!("{keyword} where a keyword must stand")),
            };
            let said = |why: &str| Err(format!("{keyword} {}: {why}", words.join(" ")));
            match (keyword, &words[..]) {
                ("$version" | "$comment", _) => {}
                ("$timescale", ["1", "us"] | ["1us"]) if !timescale => timescale = true,
                ("$scope", ["module", name]) => {
                    scopes.push(*name);
                    let path = scopes.join(".");
                    if seen.contains(&path) {
                        return said("a scope that was there");
                    }
                    seen.push(path);
                }
                ("$upscope", []) => {
                    if scopes.pop().is_none() {
                        return said("no scope is open");
                    }
                }
                ("$var", ["wire", bits, id, name]) => {
                    let bits = number(bits).filter(|bits| (1..=BITS).contains(bits));
                    let Some(bits) = bits else {
                        return said("no number of bits");
                    };
                    let scope = scopes.join(".");
                    let mut others = self.waves.signals.iter();
                    if scope.is_empty() {
                        return said("in no scope");
                    }
                    if others.any(|other| other.scope == scope && other.name == *name) {
                        return said("a name that is used twice");
                    }
                    if self.ids.insert(id, self.ids.len()).is_some() {
                        return said("an id that is used twice");
                    }
                    self.waves.signals.push(Signal {
                        scope,
                        name: name.to_string(),
                        bits,
                    });
                }
                ("$enddefinitions", []) if scopes.is_empty() && timescale => return Ok(()),
                _ => return said("not understood here"),
            }
        }
    }

    /// From `#0` on.
    fn changes(&mut self) -> Result<(), String> {
        for word in ["#0", "$dumpvars"] {
            let found = self.word()?;
            if found != word {
                return Err(format!("{found} where {word} must stand"));
            }
        }
        let mut first = vec![None; self.waves.signals.len()];
        loop {
            let word = self.word()?;
            if word == "$end" {
                break;
            }
            let (signal, value) = self.change(word)?;
            if first[signal].replace(value).is_some() {
                let name = self.name(signal);
                return Err(format!("tick 0: {name} has a value twice"));
            }
        }
        if let Some(signal) = first.iter().position(Option::is_none) {
            return Err(format!("tick 0: {} has no value", self.name(signal)));
        }
        let mut now: Vec<u32> = first.into_iter().flatten().collect();
        // By signal, whether it has changed at this tick.
        let mut changed = vec![true; now.len()];
        while let Some(word) = self.words.next() {
            let tick = self.waves.ticks.len();
            if let Some(time) = word.strip_prefix('#') {
                if number(time) != Some(tick + 1) {
                    return Err(format!("tick {time} behind tick {tick}"));
                }
                self.waves.ticks.push(now.clone());
                changed.fill(false);
                continue;
            }
            let (signal, value) = self.change(word)?;
            let name = self.name(signal);
            if std::mem::replace(&mut changed[signal], true) {
                return Err(format!("tick {tick}: {name} changes twice"));
            }
            if std::mem::replace(&mut now[signal], value) == value {
                return Err(format!("tick {tick}: {name} is {value} already"));
            }
        }
        self.waves.ticks.push(now);
        Ok(())
    }

    fn name(&self, signal: usize) -> String {
        let Signal { scope, name, .. } = &self.waves.signals[signal];
        format!("{scope}.{name}")
    }

    /// A signal and what it has, from a word and the id behind it.
    fn change(&mut self, word: &str) -> Result<(usize, u32), String> {
        let tick = self.waves.ticks.len();
        let digits = word
            .strip_prefix('b')
            .ok_or_else(|| format!("tick {tick}: {word} is not understood"))?;
        let id = self.word()?;
        let signal = self.ids.get(id).copied();
        let signal = signal.ok_or_else(|| format!("tick {tick}: no signal has the id {id}"))?;
        let said = |why: &str| {
            Err(format!(
                "tick {tick}: {} is {digits}: {why}",
                self.name(signal)
            ))
        };
        if digits.is_empty() || !digits.bytes().all(|digit| b"01".contains(&digit)) {
            return said("no binary number");
        }
        if digits.len() > 1 && digits.starts_with('0') {
            return said("a zero too many");
        }
        if digits.len() > self.waves.signals[signal].bits {
            return said("too many bits");
        }
        let value = u32::from_str_radix(digits, 2);
        Ok((signal, value.map_err(|error| error.to_string())?))
    }
}
