//! A page or a figure against the marks that it must have: each in its order, with each attribute that
//! docs/PICTURES.md names and no other of these, and with a title.

use super::marks::{Attributes, Marks, MessageMark, StepMark};
use super::stands_alone;
use super::xml::{self, Element};
use crate::model::results::taken;
use crate::model::tally::Tally;
use crate::sentence::sentence;

#[derive(Clone, Copy, Debug, PartialEq, Eq)]
pub enum Document {
    /// A page for a browser, with the figure in it.
    Page,
    /// The figure alone.
    Figure,
}

/// Elements that are marks: a word of their class, and their name.
const MARKS: [(&str, &str); 3] = [("step", "g"), ("value", "text"), ("message", "g")];

/// Words of the classes of a message's paths.
const PATHS: [&str; 5] = ["outbox", "flight", "dropped", "hold", "inbox"];

/// Attributes that a mark has only where they apply.
const NAMED: [&str; 14] = [
    "data-place",
    "data-code",
    "data-result",
    "data-card",
    "data-op",
    "data-frees",
    "data-value",
    "data-register",
    "data-kind",
    "data-from",
    "data-broadcast",
    "data-tag",
    "data-since",
    "data-until",
];

/// The marks of a document, by the order of `MARKS`.
type Found<'t, 'a> = [Vec<&'t Element<'a>>; 3];

/// Says the first thing in which a text differs from what it must be.
pub fn compare(document: Document, text: &str, marks: &Marks, answer: &[u8]) -> Result<(), String> {
    let root = xml::read(text)?;
    let name = match document {
        Document::Page => "html",
        Document::Figure => "svg",
    };
    if root.name != name {
        return Err(format!("the root is <{}>, not <{name}>", root.name));
    }
    if document == Document::Figure && root.attribute("xmlns") != Some(stands_alone::SVG) {
        return Err("a figure without its namespace".into());
    }
    stands_alone::check(&root)?;
    let mut found = Found::default();
    collect(&root, Around::default(), &mut found)?;
    let [steps, values, messages] = &found;
    each("step", steps, &marks.steps, |what, element, mark| {
        same(what, element, "g", &mark.attributes())?;
        titled_step(what, element, mark)
    })?;
    each("value", values, &marks.values, |what, element, mark| {
        same(what, element, "text", &mark.attributes())
    })?;
    each("message", messages, &marks.messages, same_message)?;
    answered(steps, answer)
}

/// What an element lies in.
#[derive(Clone, Copy, Default)]
struct Around {
    svg: bool,
    /// Whether that is what it lies in directly.
    message: bool,
}

fn words<'t>(element: &'t Element) -> impl Iterator<Item = &'t str> {
    let class = element.attribute("class").unwrap_or_default();
    class.split_ascii_whitespace()
}

fn is_path(element: &Element) -> bool {
    words(element).any(|word| PATHS.contains(&word))
}

/// Finds the marks; fails for one that has no place where it is.
fn collect<'t, 'a>(
    element: &'t Element<'a>,
    around: Around,
    found: &mut Found<'t, 'a>,
) -> Result<(), String> {
    let svg = around.svg || element.name == "svg";
    let left_over = |why: &str| {
        let class = element.attribute("class").unwrap_or_default();
        let Element { name, line, .. } = element;
        Err(format!("line {line}: <{name} class=\"{class}\"> {why}"))
    };
    if is_path(element) && !(element.name == "path" && around.message) {
        return left_over("is no path of a message");
    }
    let mut message = false;
    for ((class, name), found) in MARKS.into_iter().zip(found.iter_mut()) {
        if words(element).any(|word| word == class) {
            if element.name != name {
                return left_over(&format!("is no <{name}>"));
            }
            if !svg {
                return left_over("is in no <svg>");
            }
            found.push(element);
            message |= class == "message";
        }
    }
    let around = Around { svg, message };
    element
        .elements()
        .try_for_each(|inner| collect(inner, around, found))
}

/// Compares pair by pair, then how many there are.
fn each<'t, 'a, T>(
    name: &str,
    found: &[&'t Element<'a>],
    wanted: &[T],
    compare: impl Fn(&str, &'t Element<'a>, &T) -> Result<(), String>,
) -> Result<(), String> {
    for (number, (element, wanted)) in found.iter().zip(wanted).enumerate() {
        compare(&format!("{name} {number}"), element, wanted)?;
    }
    match (found.len(), wanted.len()) {
        (found, wanted) if found == wanted => Ok(()),
        (found, wanted) => Err(format!("{found} times {name}, not {wanted}")),
    }
}

/// Name, attributes and a title.
fn same(what: &str, element: &Element, name: &str, wanted: &Attributes) -> Result<(), String> {
    let line = element.line;
    let said = |why: String| Err(format!("{what} (line {line}): {why}"));
    if element.name != name {
        return said(format!("<{}>, not <{name}>", element.name));
    }
    for (attribute, value) in wanted {
        match element.attribute(attribute) {
            Some(found) if found == value => {}
            Some(found) => return said(format!("{attribute} is {found}, not {value}")),
            None => return said(format!("{attribute} is missing, which is {value}")),
        }
    }
    for (attribute, value) in &element.attributes {
        let applies = wanted.iter().any(|(name, _)| name == attribute);
        if NAMED.contains(attribute) && !applies {
            return said(format!("{attribute} {value} does not apply"));
        }
    }
    match title(element) {
        Some(_) => Ok(()),
        None => said("no title as its first element".into()),
    }
}

/// The words of an element's first one, if that is a title with words.
fn title(element: &Element) -> Option<String> {
    let first = element.elements().next()?;
    let plain = first.name == "title" && first.elements().next().is_none();
    let text = first.text();
    (plain && !text.trim().is_empty()).then_some(text)
}

/// The title of a refused step begins with its sentence (RULES 14.1).
fn titled_step(what: &str, element: &Element, mark: &StepMark) -> Result<(), String> {
    if taken(mark.result) {
        return Ok(());
    }
    let place = mark.place as u32;
    let sentence = sentence(place, mark.result).expect("a refusal of a step");
    match title(element).is_some_and(|title| title.starts_with(&sentence)) {
        true => Ok(()),
        false => Err(format!("{what}: its title does not begin: {sentence}")),
    }
}

fn same_message(what: &str, element: &Element, mark: &MessageMark) -> Result<(), String> {
    same(what, element, "g", &mark.attributes())?;
    let paths = element.elements().filter(|inner| is_path(inner));
    let paths: Vec<_> = paths.collect();
    each("path", &paths, &mark.stages, |which, path, stage| {
        same(which, path, "path", &stage.attributes())
    })
    .map_err(|why| format!("{what}: {why}"))
}

/// Holds the steps to the bytes of the answer file (RULES 4.1), and their number to its tally (9.3).
fn answered(steps: &[&Element], answer: &[u8]) -> Result<(), String> {
    let results = &answer[2..2 + steps.len()];
    let mut tally = Tally::default();
    for (place, (step, result)) in steps.iter().zip(results).enumerate() {
        tally.count(*result);
        let found = step.attribute("data-result");
        if found != Some(&result.to_string()) {
            return Err(format!("step {place}: result {found:?}, answered {result}"));
        }
        let [a, b, c, d] = [0, 1, 2, 3].map(|byte| answer[2 + steps.len() + 4 * place + byte]);
        let value = u32::from_le_bytes([a, b, c, d]).to_string();
        if step.attribute("data-value").unwrap_or("0") != value {
            return Err(format!(
                "step {place}: its value is not {value}, as answered"
            ));
        }
    }
    let of = |class: &[&str]| {
        let steps = steps.iter();
        let counted = steps.filter(|step| words(step).any(|word| class.contains(&word)));
        counted.count() as u32
    };
    let found = (of(&["taken", "held"]), of(&["refused"]));
    match found == (tally.taken, tally.refused) {
        true => Ok(()),
        false => Err(format!("steps taken and refused: {found:?}, not {tally:?}")),
    }
}
