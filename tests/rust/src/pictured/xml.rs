//! A strict reader of well-formed XML, as much of it as a page or a figure needs. Nothing is special in
//! `script` and `style`: a page must be well-formed as it stands. What XML allows and a page has no use
//! for is refused too: values in single quotes, processing instructions, a document type of one's own.

mod reader;
#[cfg(test)]
mod tests;

use std::borrow::Cow;

#[derive(Clone, Debug, PartialEq, Eq)]
pub struct Element<'a> {
    pub name: &'a str,
    /// In the order written; no name comes twice.
    pub attributes: Vec<(&'a str, Cow<'a, str>)>,
    pub inside: Vec<Node<'a>>,
    /// Where its tag begins, from 1.
    pub line: usize,
    /// Whether it is written as one tag, `<name/>`.
    pub short: bool,
    /// What stands between its tags, as it is written.
    pub raw: &'a str,
}

#[derive(Clone, Debug, PartialEq, Eq)]
pub enum Node<'a> {
    Element(Element<'a>),
    /// Text or a CDATA section; two may stand side by side.
    Text(Cow<'a, str>),
}

impl<'a> Element<'a> {
    pub fn attribute(&self, name: &str) -> Option<&str> {
        let mut attributes = self.attributes.iter();
        let found = attributes.find(|(other, _)| *other == name);
        found.map(|(_, value)| &**value)
    }

    pub fn elements(&self) -> impl Iterator<Item = &Element<'a>> {
        self.inside.iter().filter_map(|node| match node {
            Node::Element(element) => Some(element),
            Node::Text(_) => None,
        })
    }

    /// Its own text, without that of elements in it.
    pub fn text(&self) -> String {
        let texts = self.inside.iter().filter_map(|node| match node {
            Node::Element(_) => None,
            Node::Text(text) => Some(&**text),
        });
        texts.collect()
    }
}

/// The root of a document, or what is wrong with it and in which line.
pub fn read(text: &str) -> Result<Element<'_>, String> {
    let at_line = |at: usize| 1 + text[..at].matches('\n').count();
    if let Some(at) = text.find(|c| !may_stand(c)) {
        return Err(format!("line {}: a control character", at_line(at)));
    }
    let mut reader = reader::Reader::new(text);
    let root = reader.document();
    root.map_err(|why| format!("line {}: {why}", at_line(reader.at)))
}

/// XML 1.0 allows a few controls more, from 127 on.
fn may_stand(c: char) -> bool {
    matches!(c, '\t' | '\n' | '\r') || !c.is_control() && !matches!(c, '\u{FFFE}' | '\u{FFFF}')
}

/// With the five named entities and numbers of characters read.
fn decoded(raw: &str) -> Result<Cow<'_, str>, String> {
    if !raw.contains('&') {
        return Ok(raw.into());
    }
    let mut parts = raw.split('&');
    let mut text = parts.next().unwrap_or_default().to_string();
    for part in parts {
        let (name, rest) = part.split_once(';').ok_or("`&` that begins no entity")?;
        text.push(entity(name).ok_or_else(|| format!("no such entity: &{name};"))?);
        text += rest;
    }
    Ok(text.into())
}

fn entity(name: &str) -> Option<char> {
    let number = |digits: &str, base| {
        let plain = digits.chars().all(|c| c.is_ascii_alphanumeric());
        let number = u32::from_str_radix(digits, base).ok().filter(|_| plain)?;
        char::from_u32(number).filter(|&c| may_stand(c))
    };
    match name {
        "amp" => Some('&'),
        "lt" => Some('<'),
        "gt" => Some('>'),
        "quot" => Some('"'),
        "apos" => Some('\''),
        _ => match name.strip_prefix("#x") {
            Some(digits) => number(digits, 16),
            None => number(name.strip_prefix('#')?, 10),
        },
    }
}
