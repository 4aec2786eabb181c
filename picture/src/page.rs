//! The diagram in a page of its own, or as a figure for documents.

use std::fmt::Write;

use crate::file::in_set;
use crate::lanes::{Lanes, PITCH};
use crate::run::Run;
use crate::said;
use crate::svg::{escaped, names, world, NAMES};

const FIGURE: &str = include_str!("../page/figure.css");
const PAGE: &str = include_str!("../page/page.css");
const SCRIPT: &str = include_str!("../page/page.js");

const HATCH: &str = "<defs><pattern id=\"hatch\" width=\"6\" height=\"6\" patternUnits=\"userSpaceOnUse\" \
    patternTransform=\"rotate(45)\"><path d=\"M0 0V6\" stroke=\"#000\" stroke-width=\"2\"/></pattern></defs>";

/// Sizes and counts, in a line.
fn summary(run: &Run) -> String {
    let (taken, refused) = run.counts();
    let held = run
        .steps
        .iter()
        .filter(|step| step.result() == gondzselu::HELD);
    format!(
        "cards {}, registers {}, tasks {}, steps {}; taken {taken} (held {}), refused {refused}",
        run.file.cards,
        run.file.copies.len(),
        run.file.homes.len(),
        run.steps.len(),
        held.count(),
    )
}

/// The diagram alone, as an SVG file.
pub fn figure(run: &Run, name: &str) -> String {
    let lanes = Lanes::of(run);
    let (width, height) = (NAMES + lanes.width, lanes.height);
    format!(
        "<svg xmlns=\"http://www.w3.org/2000/svg\" width=\"{width}\" height=\"{height}\" viewBox=\"0 0 {width} {height}\">\n\
         <title>{}: {}</title>\n<style>\n{FIGURE}</style>\n{HATCH}\n<rect width=\"{width}\" height=\"{height}\" fill=\"#fff\"/>\n\
         {}<g transform=\"translate({NAMES} 0)\">\n{}</g>\n</svg>\n",
        escaped(name),
        summary(run),
        names(&run.file, &lanes),
        world(run, &lanes),
    )
}

/// The copies, a row for each register; the script fills them in.
fn copies(run: &Run) -> String {
    let mut out =
        String::from("<table id=\"copies\"><caption>copies after this step</caption><tr><th></th>");
    for card in 0..run.file.cards {
        let _ = write!(out, "<th>card {card}</th>");
    }
    out += "</tr>";
    for (register, &set) in run.file.copies.iter().enumerate() {
        let _ = write!(out, "<tr><th>register {register}</th>");
        for card in 0..run.file.cards {
            out += &match in_set(set, card) {
                true => format!("<td data-copy=\"{register} {card}\">0</td>"),
                false => "<td></td>".to_string(),
            };
        }
        out += "</tr>";
    }
    out + "</table>"
}

/// The operations, to choose one without a mouse.
fn choices(run: &Run) -> String {
    let mut out = String::from("<option value=\"\">none</option>");
    for number in 0..run.operations.len() {
        let words = escaped(&said::operation(run, number));
        let _ = write!(out, "<option value=\"{number}\">{words}</option>");
    }
    out
}

/// A page that needs nothing but a browser, and fetches nothing.
pub fn page(run: &Run, name: &str) -> String {
    let lanes = Lanes::of(run);
    let (width, height, last) = (lanes.width, lanes.height, run.steps.len().saturating_sub(1));
    let name = escaped(name);
    format!(
        "<!DOCTYPE html>\n<html lang=\"en\">\n<head>\n<meta charset=\"utf-8\"/>\n\
         <meta http-equiv=\"Content-Security-Policy\" content=\"default-src 'none'; style-src 'unsafe-inline'; script-src 'unsafe-inline'\"/>\n\
         <title>{name}</title>\n<style>\n{FIGURE}{PAGE}</style>\n</head>\n<body>\n\
         <header><h1>{name}</h1>{}</header>\n\
         <div id=\"bar\">\n\
         <span>step <button id=\"last\" title=\"the step before (left arrow)\">&lt;</button> \
         <input id=\"jump\" type=\"number\" min=\"0\" max=\"{last}\" aria-label=\"jump to step\" title=\"jump to a step (j)\"/> \
         <button id=\"next\" title=\"the next step (right arrow)\">&gt;</button></span>\n\
         <span>next <button id=\"held\" title=\"the next held message (h)\">held</button> \
         <button id=\"refused\" title=\"the next refused step (r)\">refused</button></span>\n\
         <span>time <button id=\"out\" title=\"narrower (-)\">-</button> \
         <button id=\"in\" title=\"wider (+)\">+</button> \
         <button id=\"same\" title=\"as drawn (0)\">1:1</button> \
         <button id=\"fit\" title=\"the whole run (f)\">all</button></span>\n\
         <label>light up <select id=\"pick\" title=\"light up an operation\">{}</select></label>\n\
         <span><kbd>left</kbd> <kbd>right</kbd> step, <kbd>up</kbd> <kbd>down</kbd> along the operation, <kbd>Enter</kbd> light it up, \
         <kbd>Esc</kbd> no more</span>\n\
         </div>\n\
         <div id=\"frame\" tabindex=\"0\" role=\"group\" aria-label=\"space-time diagram\">\n\
         <svg id=\"names\" width=\"{NAMES}\" height=\"{height}\" viewBox=\"0 0 {NAMES} {height}\">\n{}</svg>\n\
         <svg id=\"world\" width=\"{width}\" height=\"{height}\" data-width=\"{width}\" data-height=\"{height}\" data-pitch=\"{PITCH}\">\n\
         {HATCH}\n<g id=\"time\">\n{}</g>\n</svg>\n</div>\n\
         <div id=\"panel\"><p id=\"said\" aria-live=\"polite\">no steps</p>{}</div>\n\
         <script>\n//<![CDATA[\n{SCRIPT}//]]>\n</script>\n</body>\n</html>\n",
        summary(run),
        choices(run),
        names(&run.file, &lanes),
        world(run, &lanes),
        copies(run),
    )
}
