//! As much of JSON as the browser's messages need, and base64, in which it sends pictures.

use std::iter::Peekable;
use std::str::Chars;

#[derive(Debug)]
pub enum Json {
    /// `null`, and what an object does not have.
    Nothing,
    Truth(bool),
    Number(f64),
    Text(String),
    List(Vec<Json>),
    Object(Vec<(String, Json)>),
}

impl Json {
    pub fn read(text: &str) -> Result<Json, String> {
        let mut rest = text.chars().peekable();
        let json = value(&mut rest)?;
        match rest.find(|c| !c.is_whitespace()) {
            None => Ok(json),
            Some(c) => Err(format!("`{c}` after the end")),
        }
    }

    /// A part, by names with dots between them.
    pub fn get(&self, path: &str) -> &Json {
        let (name, rest) = path.split_once('.').unwrap_or((path, ""));
        let Json::Object(fields) = self else {
            return &Json::Nothing;
        };
        match fields.iter().find(|(field, _)| field == name) {
            None => &Json::Nothing,
            Some((_, json)) if rest.is_empty() => json,
            Some((_, json)) => json.get(rest),
        }
    }

    /// Text as it is, a number or a truth in digits or letters, else nothing.
    pub fn text(&self) -> String {
        match self {
            Json::Text(text) => text.clone(),
            Json::Number(number) => number.to_string(),
            Json::Truth(truth) => truth.to_string(),
            _ => String::new(),
        }
    }

    pub fn is_nothing(&self) -> bool {
        matches!(self, Json::Nothing)
    }
}

/// A string of JSON.
pub fn quoted(text: &str) -> String {
    let mut out = String::from("\"");
    for c in text.chars() {
        match c {
            '"' | '\\' => out.extend(['\\', c]),
            c if c < ' ' => out += &format!("\\u{:04x}", u32::from(c)),
            c => out.push(c),
        }
    }
    out + "\""
}

type Rest<'a> = Peekable<Chars<'a>>;

fn skip(rest: &mut Rest) {
    while rest.next_if(|c| c.is_whitespace()).is_some() {}
}

fn expect(rest: &mut Rest, wanted: &str) -> Result<(), String> {
    for c in wanted.chars() {
        if rest.next() != Some(c) {
            return Err(format!("no `{wanted}`"));
        }
    }
    Ok(())
}

fn value(rest: &mut Rest) -> Result<Json, String> {
    skip(rest);
    Ok(match rest.peek() {
        Some('{') => {
            let mut fields = Vec::new();
            members(rest, '}', |rest| {
                let name = string(rest)?;
                skip(rest);
                expect(rest, ":")?;
                fields.push((name, value(rest)?));
                Ok(())
            })?;
            Json::Object(fields)
        }
        Some('[') => {
            let mut list = Vec::new();
            members(rest, ']', |rest| {
                list.push(value(rest)?);
                Ok(())
            })?;
            Json::List(list)
        }
        Some('"') => Json::Text(string(rest)?),
        Some('t') => expect(rest, "true").map(|()| Json::Truth(true))?,
        Some('f') => expect(rest, "false").map(|()| Json::Truth(false))?,
        Some('n') => expect(rest, "null").map(|()| Json::Nothing)?,
        _ => {
            let mut digits = String::new();
            while let Some(c) = rest.next_if(|c| c.is_ascii_digit() || "+-.eE".contains(*c)) {
                digits.push(c);
            }
            let number = digits.parse().map_err(|_| format!("`{digits}`, a number"));
            Json::Number(number?)
        }
    })
}

/// What is between brackets, with commas between its members.
fn members(
    rest: &mut Rest,
    end: char,
    mut member: impl FnMut(&mut Rest) -> Result<(), String>,
) -> Result<(), String> {
    rest.next();
    skip(rest);
    if rest.next_if_eq(&end).is_some() {
        return Ok(());
    }
    loop {
        skip(rest);
        member(rest)?;
        skip(rest);
        match rest.next() {
            Some(',') => {}
            Some(c) if c == end => return Ok(()),
            _ => return Err(format!("no `,` or `{end}`")),
        }
    }
}

fn string(rest: &mut Rest) -> Result<String, String> {
    expect(rest, "\"")?;
    let mut out = String::new();
    loop {
        match rest.next().ok_or("a string without end")? {
            '"' => return Ok(out),
            '\\' => match rest.next().ok_or("a string without end")? {
                'n' => out.push('\n'),
                't' => out.push('\t'),
                'r' => out.push('\r'),
                'b' | 'f' => out.push(' '),
                'u' => {
                    let digits: String = rest.by_ref().take(4).collect();
                    let code = u32::from_str_radix(&digits, 16).map_err(|_| "no \\u")?;
                    // Nothing here needs the signs that are written as two halves.
                    out.push(char::from_u32(code).unwrap_or('?'));
                }
                c => out.push(c),
            },
            c => out.push(c),
        }
    }
}

/// The bytes that base64 text stands for.
pub fn base64(text: &str) -> Result<Vec<u8>, String> {
    let mut bytes = Vec::new();
    let (mut held, mut bits) = (0_u32, 0);
    for c in text.bytes().filter(|&c| c != b'=') {
        let six = match c {
            b'A'..=b'Z' => c - b'A',
            b'a'..=b'z' => c - b'a' + 26,
            b'0'..=b'9' => c - b'0' + 52,
            b'+' => 62,
            b'/' => 63,
            _ => return Err(format!("`{}` in base64", char::from(c))),
        };
        held = held << 6 | u32::from(six);
        bits += 6;
        if bits >= 8 {
            bits -= 8;
            bytes.push((held >> bits) as u8);
            held &= (1 << bits) - 1;
        }
    }
    Ok(bytes)
}
