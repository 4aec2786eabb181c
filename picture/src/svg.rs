//! The diagram as SVG. docs/PICTURES.md says which elements and attributes stand for what.

use std::fmt::Write;

use crate::file::RunFile;
use crate::lanes::{x, Lane, Lanes, BESIDE, HALF, HEAD, PITCH, RISE};
use crate::run::{Effect, Place, Run};
use crate::{said, ways};

/// The width of what is said of the cards, left of the lanes.
pub const NAMES: usize = 132;

/// Text in XML.
pub fn escaped(text: &str) -> String {
    let mut out = String::new();
    for c in text.chars() {
        match c {
            '&' => out += "&amp;",
            '<' => out += "&lt;",
            '>' => out += "&gt;",
            '"' => out += "&quot;",
            // XML has no sign for most of these.
            c if c.is_control() && c != '\n' => out.push(' '),
            c => out.push(c),
        }
    }
    out
}

pub fn title(text: &str) -> String {
    format!("<title>{}</title>", escaped(text))
}

/// Numbers by rising order, neighbours as ranges.
fn ranges(numbers: impl Iterator<Item = u8>) -> String {
    let mut ranges: Vec<(u8, u8)> = Vec::new();
    for number in numbers {
        match ranges.last_mut() {
            Some(last) if last.1 + 1 == number => last.1 = number,
            _ => ranges.push((number, number)),
        }
    }
    let ranges = ranges.into_iter().map(|range| match range {
        (from, to) if from == to => from.to_string(),
        (from, to) if from + 1 == to => format!("{from} {to}"),
        (from, to) => format!("{from}-{to}"),
    });
    said::list(ranges)
}

/// What is said of each card, beside its lane.
pub fn names(file: &RunFile, lanes: &Lanes) -> String {
    let mut out = String::new();
    for (card, lane) in (0..).zip(&lanes.lanes) {
        let mut lines = Vec::new();
        if card == file.cards {
            lines.push("no card".to_string());
        } else {
            let tasks = (0..).zip(file.homes).filter(|(_, &home)| home == card);
            let primary = (0..)
                .zip(file.primaries)
                .filter(|(_, &primary)| primary == card);
            let tasks = ranges(tasks.map(|(task, _)| task));
            let primary = ranges(primary.map(|(register, _)| register));
            lines.push(format!("card {card}"));
            let held = ranges(file.held_by(card));
            for (what, numbers) in [
                ("tasks", tasks),
                ("registers", held),
                ("primary of", primary),
            ] {
                // One of them needs no plural.
                let what = match numbers.parse::<u8>() {
                    Ok(_) => what.trim_end_matches('s'),
                    Err(_) => what,
                };
                if !numbers.is_empty() {
                    lines.push(format!("{what} {numbers}"));
                }
            }
        }
        let _ = write!(out, "<g class=\"name\">{}", title(&lines.join("\n")));
        for (nth, line) in lines.iter().enumerate() {
            // A longer line is whole in the title.
            let cut: String = line.chars().take(22).collect();
            let y = lane.top + 16 + 12 * nth;
            let _ = write!(out, "<text x=\"8\" y=\"{y}\">{}</text>", escaped(&cut));
        }
        out += "</g>\n";
    }
    out
}

/// Everything right of the names: the numbers of the places, the lines of the cards, messages, marks
/// and values.
pub fn world(run: &Run, lanes: &Lanes) -> String {
    let mut out = String::new();
    let _ = writeln!(
        out,
        "<rect id=\"cursor\" x=\"0\" y=\"0\" width=\"{PITCH}\" height=\"{}\"/>",
        lanes.height
    );
    for lane in &lanes.lanes {
        let (y, end) = (lane.line, lanes.width);
        let _ = writeln!(out, "<path class=\"line\" d=\"M0 {y}H{end}\"/>");
    }
    ways::write(run, lanes, &mut out);
    for place in 0..run.steps.len() {
        out += &step(run, lanes, place);
    }
    for place in 0..run.steps.len() {
        values(run, lanes, place, &mut out);
    }
    let _ = write!(
        out,
        "<g id=\"axis\"><rect x=\"0\" y=\"0\" width=\"{}\" height=\"{HEAD}\"/>",
        lanes.width
    );
    for place in 0..run.steps.len() {
        let round = [1_000, 100, 10]
            .into_iter()
            .find(|round| place % round == 0);
        let class = format!("by{}", round.unwrap_or(1));
        let _ = write!(
            out,
            "<text class=\"{class}\" x=\"{}\" y=\"15\">{place}</text>",
            x(place)
        );
    }
    out += "</g>\n";
    out
}

fn lane_of<'a>(lanes: &'a Lanes, card: Option<u8>) -> &'a Lane {
    match card {
        Some(card) => &lanes.lanes[usize::from(card)],
        None => &lanes.lanes[lanes.lanes.len() - 1],
    }
}

fn step(run: &Run, lanes: &Lanes, place: Place) -> String {
    let step = &run.steps[place];
    let lane = lane_of(lanes, step.card);
    let (code, result) = (step.code, step.result());
    let how = match (&step.answer, result) {
        (Err(_), _) => "refused",
        (Ok(_), 0) => "taken",
        _ => "held",
    };
    let mut more = String::new();
    if let Some(card) = step.card {
        let _ = write!(more, " data-card=\"{card}\"");
    }
    if let Ok(taken) = &step.answer {
        let _ = write!(more, " data-op=\"{}\"", taken.operation);
        match &taken.effect {
            Effect::Takes(_, released) if !released.is_empty() => {
                let freed = released.iter().map(|&id| run.messages[id].operation);
                let _ = write!(more, " data-frees=\"{}\"", said::list(freed));
            }
            Effect::Reports(value) => {
                let _ = write!(more, " data-value=\"{value}\"");
            }
            _ => {}
        }
    }
    let mark = match step.answer {
        Err(_) => "<path d=\"M-5 -5L5 5M-5 5L5 -5\"/>".to_string(),
        Ok(_) => {
            let round = if matches!(code, 1 | 2 | 3 | 10) {
                RISE
            } else {
                2
            };
            let (wide, high) = (2 * HALF, 2 * RISE);
            let word = said::mark(code);
            format!(
                "<rect x=\"-{HALF}\" y=\"-{RISE}\" width=\"{wide}\" height=\"{high}\" rx=\"{round}\"/>\
                 <text class=\"word\" y=\"3.5\">{word}</text>"
            )
        }
    };
    let label = escaped(&said::label(run, place));
    let up = lane.line - lane.label(lanes.labels[place]);
    format!(
        "<g class=\"step code{code} {how}\" id=\"s{place}\" data-place=\"{place}\" data-code=\"{code}\" \
         data-result=\"{result}\"{more} transform=\"translate({} {})\">{}{mark}\
         <text class=\"label\" x=\"-{HALF}\" y=\"-{up}\">{label}</text></g>\n",
        x(place),
        lane.line,
        title(&said::step(run, place)),
    )
}

fn values(run: &Run, lanes: &Lanes, place: Place, out: &mut String) {
    let step = &run.steps[place];
    let Ok(taken) = &step.answer else { return };
    for (change, &row) in step.changes.iter().zip(&lanes.values[place]) {
        let (card, register, is) = (change.card, change.register, change.is);
        let y = lanes.lanes[usize::from(card)].value(row);
        let words = format!(
            "step {place}: the copy of register {register} on card {card} becomes {is}, it was {}",
            change.was
        );
        let _ = writeln!(
            out,
            "<text class=\"value\" x=\"{}\" y=\"{y}\" data-place=\"{place}\" data-card=\"{card}\" \
             data-register=\"{register}\" data-value=\"{is}\" data-op=\"{}\">{}{}</text>",
            x(place) - BESIDE,
            taken.operation,
            title(&words),
            said::value(change),
        );
    }
}
