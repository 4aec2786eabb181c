//! A page that needs nothing else: no id comes twice, what it points to is in it, nothing is fetched, and a
//! reader of HTML sees the same as one of XML.

use std::collections::BTreeSet;

use super::xml::Element;

/// The namespaces that `xmlns` may name. They are names; nothing is fetched from there.
pub const SVG: &str = "http://www.w3.org/2000/svg";
const XHTML: &str = "http://www.w3.org/1999/xhtml";

/// Elements that are there to bring something else in.
const BRINGING: [&str; 15] = [
    "applet", "audio", "base", "embed", "feImage", "frame", "iframe", "image", "img", "link",
    "object", "picture", "source", "track", "video",
];

/// Attributes that name something to be fetched.
const FETCHING: [&str; 9] = [
    "action",
    "background",
    "data",
    "formaction",
    "manifest",
    "ping",
    "poster",
    "src",
    "srcset",
];

/// Words of a script that fetches.
const CALLS: [&str; 9] = [
    "fetch(",
    "import(",
    "import ",
    "XMLHttpRequest",
    "WebSocket",
    "EventSource",
    "sendBeacon",
    "Worker",
    ".src",
];

/// Elements of HTML that have no end, and so may be written as one tag.
const VOID: [&str; 6] = ["br", "col", "hr", "input", "meta", "wbr"];

/// The ids of a document, and where it points.
#[derive(Default)]
struct Names {
    ids: BTreeSet<String>,
    wanted: BTreeSet<String>,
}

pub fn check(root: &Element) -> Result<(), String> {
    let mut names = Names::default();
    walk(root, root.name == "html", &mut names)?;
    match names.wanted.difference(&names.ids).next() {
        Some(name) => Err(format!("#{name} is nowhere")),
        None => Ok(()),
    }
}

/// `html` is whether a browser reads it as HTML, not as a part of a figure.
fn walk(element: &Element, html: bool, names: &mut Names) -> Result<(), String> {
    let html = html && element.name != "svg";
    let Element { name, line, .. } = element;
    let said = |why: String| format!("line {line}: <{name}>: {why}");
    if BRINGING.contains(name) {
        return Err(said("it is there to fetch something".into()));
    }
    for (attribute, value) in &element.attributes {
        attributed(attribute, value, names).map_err(said)?;
    }
    let text = element.text();
    match *name {
        "style" => plain(&text, names).map_err(said)?,
        "script" => called(&text).map_err(said)?,
        _ => {}
    }
    if html && element.short && !VOID.contains(name) {
        return Err(said("a reader of HTML does not close it here".into()));
    }
    if html && ["script", "style"].contains(name) && !same_in_html(element, &text) {
        return Err(said("a reader of HTML reads another text".into()));
    }
    element
        .elements()
        .try_for_each(|inner| walk(inner, html, names))
}

fn attributed(attribute: &str, value: &str, names: &mut Names) -> Result<(), String> {
    let what = |why: String| format!("{attribute}=\"{value}\": {why}");
    match attribute {
        "xmlns" => match [SVG, XHTML].contains(&value) {
            true => Ok(()),
            false => Err(what("no namespace of a page".into())),
        },
        "id" => match !value.is_empty() && !value.contains(char::is_whitespace) {
            true if names.ids.insert(value.to_string()) => Ok(()),
            true => Err(what("an id that is used twice".into())),
            false => Err(what("no id".into())),
        },
        "href" | "xlink:href" => match value.strip_prefix('#') {
            Some(id) => {
                names.wanted.insert(id.to_string());
                Ok(())
            }
            None => Err(what("it may be fetched".into())),
        },
        "http-equiv" => Err(what("it may fetch another page".into())),
        _ if FETCHING.contains(&attribute) => Err(what("it may be fetched".into())),
        _ => plain(value, names).map_err(what),
    }
}

/// A style or an attribute that names nothing outside the page.
fn plain(text: &str, names: &mut Names) -> Result<(), String> {
    let lower = text.to_ascii_lowercase();
    let outside = ["http:", "https:", "//", "@import", "image-set("];
    if let Some(word) = outside.into_iter().find(|word| lower.contains(word)) {
        return Err(format!("{word} may be fetched"));
    }
    for (at, word) in lower.match_indices("url(") {
        let inner = text[at + word.len()..].split(')').next();
        let inner = inner.unwrap_or_default();
        match inner.trim_matches(['"', '\'']).strip_prefix('#') {
            Some(id) => names.wanted.insert(id.to_string()),
            None => return Err(format!("url({inner}) may be fetched")),
        };
    }
    Ok(())
}

/// A script may name the namespaces, which it needs to make elements.
fn called(text: &str) -> Result<(), String> {
    let text = text.replace(SVG, "").replace(XHTML, "");
    let mut words = CALLS.into_iter().chain(["http:", "https:"]);
    match words.find(|word| text.contains(word)) {
        Some(word) => Err(format!("{word} may fetch something")),
        None => Ok(()),
    }
}

/// In HTML a script or a style is what stands between its tags: no entity is read there, and a CDATA section
/// must be behind a comment of its own language.
fn same_in_html(element: &Element, text: &str) -> bool {
    let markers = ["<![CDATA[", "]]>"];
    let hidden = |marker| {
        let mut before = element.raw.match_indices(marker);
        before.all(|(at, _)| {
            let before = &element.raw[..at];
            before.ends_with("//") || before.ends_with("/*")
        })
    };
    let [begin, end] = markers;
    let raw = element.raw.replace(begin, "").replace(end, "");
    markers.into_iter().all(hidden) && raw == text
}
