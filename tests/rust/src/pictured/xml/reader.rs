//! The reader at its place in the text.

use std::borrow::Cow;

use super::{decoded, Element, Node};

/// How deep elements may lie in each other, so that who walks a tree needs no more stack.
const DEEPEST: usize = 100;

pub(super) struct Reader<'a> {
    text: &'a str,
    pub at: usize,
    /// The line of an earlier place, so that lines are counted once.
    counted: (usize, usize),
    /// Open elements, the innermost last, each with the place behind its tag.
    open: Vec<(Element<'a>, usize)>,
    root: Option<Element<'a>>,
    typed: bool,
}

fn blank(c: char) -> bool {
    matches!(c, ' ' | '\t' | '\n' | '\r')
}

impl<'a> Reader<'a> {
    pub fn new(text: &'a str) -> Reader<'a> {
        Reader {
            text,
            at: 0,
            counted: (0, 1),
            open: Vec::new(),
            root: None,
            typed: false,
        }
    }

    fn rest(&self) -> &'a str {
        &self.text[self.at..]
    }

    fn line(&mut self) -> usize {
        let (at, line) = self.counted;
        let line = line + self.text[at..self.at].matches('\n').count();
        self.counted = (self.at, line);
        line
    }

    fn eats(&mut self, word: &str) -> bool {
        let found = self.rest().starts_with(word);
        self.at += if found { word.len() } else { 0 };
        found
    }

    /// Whether there was any.
    fn eats_blanks(&mut self) -> bool {
        let rest = self.rest();
        let left = rest.trim_start_matches(blank);
        self.at += rest.len() - left.len();
        rest.len() != left.len()
    }

    /// What stands before a word, which is eaten with it.
    fn before(&mut self, word: &str, what: &str) -> Result<&'a str, String> {
        let rest = self.rest();
        let length = rest.find(word);
        let length = length.ok_or_else(|| format!("{what} does not end"))?;
        self.at += length + word.len();
        Ok(&rest[..length])
    }

    /// Of ASCII, as all names of a page are.
    fn name(&mut self) -> Option<&'a str> {
        let rest = self.rest();
        let inner = |c: char| c.is_ascii_alphanumeric() || "-_.:".contains(c);
        let length = rest.find(|c| !inner(c)).unwrap_or(rest.len());
        let begins = |c: char| c.is_ascii_alphabetic() || c == '_';
        let name = Some(&rest[..length]).filter(|name| name.starts_with(begins))?;
        self.at += length;
        Some(name)
    }

    pub fn document(&mut self) -> Result<Element<'a>, String> {
        if self.eats("<?xml ") {
            let words = self.before("?>", "the XML declaration")?;
            if !["version=\"1.0\"", "version=\"1.0\" encoding=\"UTF-8\""].contains(&words) {
                return Err(format!("an XML declaration with {words}"));
            }
        }
        loop {
            self.text_here()?;
            let tag = self.at;
            if self.rest().is_empty() {
                break;
            } else if self.eats("<!--") {
                self.comment()?;
            } else if self.eats("<![CDATA[") {
                let text = self.before("]]>", "a CDATA section")?;
                self.add(Node::Text(text.into()), "a CDATA section")?;
            } else if self.eats("<!DOCTYPE ") {
                self.document_type()?;
            } else if self.eats("</") {
                self.end(tag)?;
            } else {
                self.start()?;
            }
        }
        match self.open.last() {
            Some((Element { name, line, .. }, _)) => {
                Err(format!("<{name}> of line {line} is not closed"))
            }
            None => self.root.take().ok_or("no root".into()),
        }
    }

    /// Into the innermost open element.
    fn add(&mut self, node: Node<'a>, what: &str) -> Result<(), String> {
        match (self.open.last_mut(), node) {
            (Some((element, _)), node) => element.inside.push(node),
            (None, Node::Element(element)) => self.root = Some(element),
            (None, Node::Text(_)) => return Err(format!("{what} outside the root")),
        }
        Ok(())
    }

    /// Up to the next `<` or the end.
    fn text_here(&mut self) -> Result<(), String> {
        let rest = self.rest();
        let text = &rest[..rest.find('<').unwrap_or(rest.len())];
        if text.contains("]]>") {
            return Err("`]]>` in text".into());
        }
        if !text.is_empty() && !(self.open.is_empty() && text.chars().all(blank)) {
            self.add(Node::Text(decoded(text)?), "text")?;
        }
        self.at += text.len();
        Ok(())
    }

    /// Behind `<!--`.
    fn comment(&mut self) -> Result<(), String> {
        let inner = self.before("--", "a comment")?;
        match self.eats(">") {
            true => Ok(()),
            false => Err(format!("`--` in the comment {inner:?}")),
        }
    }

    /// Behind `<!DOCTYPE`.
    fn document_type(&mut self) -> Result<(), String> {
        let name = self.before(">", "the document type")?;
        if self.typed || self.root.is_some() || !self.open.is_empty() {
            return Err("a document type that is not at the start".into());
        }
        self.typed = true;
        match !name.is_empty() && name.bytes().all(|byte| byte.is_ascii_alphabetic()) {
            true => Ok(()),
            false => Err(format!("a document type that is no name: {name}")),
        }
    }

    /// At `<`.
    fn start(&mut self) -> Result<(), String> {
        let line = self.line();
        if self.root.is_some() {
            return Err("a second root".into());
        }
        if self.open.len() == DEEPEST {
            return Err("elements too deep in each other".into());
        }
        self.eats("<");
        let name = self.name().ok_or("`<` that begins no tag")?;
        let mut attributes: Vec<(&str, Cow<str>)> = Vec::new();
        let short = loop {
            let apart = self.eats_blanks();
            if self.eats("/>") {
                break true;
            }
            if self.eats(">") {
                break false;
            }
            let attribute = self.name();
            let attribute = attribute.ok_or_else(|| format!("the tag <{name}> does not end"))?;
            if !apart {
                return Err(format!("no blank before the attribute {attribute}"));
            }
            if attributes.iter().any(|(other, _)| *other == attribute) {
                return Err(format!("two attributes {attribute} in <{name}>"));
            }
            attributes.push((attribute, self.value(attribute)?));
        };
        let element = Element {
            name,
            attributes,
            inside: Vec::new(),
            line,
            short,
            raw: "",
        };
        match short {
            true => self.add(Node::Element(element), "an element"),
            false => {
                self.open.push((element, self.at));
                Ok(())
            }
        }
    }

    /// Behind the name of an attribute.
    fn value(&mut self, attribute: &str) -> Result<Cow<'a, str>, String> {
        self.eats_blanks();
        if !self.eats("=") {
            return Err(format!("no value of the attribute {attribute}"));
        }
        self.eats_blanks();
        let what = format!("the value of {attribute}");
        if !self.eats("\"") {
            return Err(format!("{what} is not in double quotes"));
        }
        let begins = self.at;
        let raw = self.before("\"", &what)?;
        let behind = std::mem::replace(&mut self.at, begins);
        if raw.contains('<') {
            return Err(format!("`<` in {what}"));
        }
        let value = decoded(raw).map_err(|why| format!("{what}: {why}"))?;
        self.at = behind;
        Ok(value)
    }

    /// Behind `</`, which began at `tag`.
    fn end(&mut self, tag: usize) -> Result<(), String> {
        let name = self.name().ok_or("`</` that ends no element")?;
        self.eats_blanks();
        if !self.eats(">") {
            return Err(format!("the tag </{name}> does not end"));
        }
        let open = self.open.pop();
        let (mut element, begins) = open.ok_or_else(|| format!("</{name}> and nothing is open"))?;
        if element.name != name {
            let Element {
                name: other, line, ..
            } = element;
            return Err(format!("</{name}> where <{other}> of line {line} is open"));
        }
        element.raw = &self.text[begins..tag];
        self.add(Node::Element(element), "an element")
    }
}
