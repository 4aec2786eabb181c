//! A small honest `picture`: marks and waves as a page, a figure and a VCD file, with nothing drawn that
//! nobody reads. Each mark and each path has a line of its own, which `wrong` relies on.

use super::super::marks::{Attributes, Marks, StepMark};
use super::super::waves::{Signal, Waves};
use super::super::{refused, Picture, Wanted, PHRASES, PICTURES};
use super::*;

/// A style, a script and an entity, as pages may have them.
const HEAD: &str = "<!DOCTYPE html>
<html xmlns=\"http://www.w3.org/1999/xhtml\" lang=\"en\">
<head><meta charset=\"UTF-8\"/><title>a run &amp; its answer</title>
<style>.held { fill: url(#Hatch) }</style>
<script>//<![CDATA[
if (1 < 2 && true) { document.createElementNS('http://www.w3.org/2000/svg', 'g'); }
//]]></script></head>
<body><p>a run</p><a href=\"#s0\">to its start</a>
";

fn attributes(attributes: &Attributes) -> String {
    let attributes = attributes.iter();
    let words = attributes.map(|(name, value)| format!(" {name}=\"{value}\""));
    words.collect()
}

fn step_title(step: &StepMark) -> String {
    match sentence(step.place as u32, step.result) {
        Some(sentence) => format!("{sentence}, on line &#34;{:?}&#x22;", step.card),
        None => format!("step {}, taken &amp; done", step.place),
    }
}

pub fn figure(marks: &Marks) -> String {
    let mut text = "<svg xmlns=\"http://www.w3.org/2000/svg\">\n<!-- steps - values - messages -->
<defs><pattern id=\"Hatch\"/></defs>\n<g>\n"
        .to_string();
    for step in &marks.steps {
        let (attributes, title) = (attributes(&step.attributes()), step_title(step));
        text += &format!("<g{attributes}><title>{title}</title><circle r=\"3\"/></g>\n");
    }
    text += "</g>\n";
    for value in &marks.values {
        let attributes = attributes(&value.attributes());
        text += &format!(
            "<text{attributes}><title>a value</title>{}</text>\n",
            value.value
        );
    }
    for message in &marks.messages {
        let opening = attributes(&message.attributes());
        text += &format!("<g{opening}>\n<title>a message</title>\n");
        for stage in &message.stages {
            let attributes = attributes(&stage.attributes());
            text += &format!("<path{attributes}><title>a stage</title></path>\n");
        }
        text += "<path d=\"M0 0\"/>\n</g>\n";
    }
    text + "</svg>\n"
}

pub fn page(marks: &Marks) -> String {
    let head = match marks.steps.is_empty() {
        true => HEAD.replace(" href=\"#s0\"", ""),
        false => HEAD.to_string(),
    };
    format!("{head}{}</body>\n</html>\n", figure(marks))
}

/// From `!` on, as many characters as are needed.
fn id(number: usize) -> String {
    let letter = (b'!' + (number % 94) as u8) as char;
    match number / 94 {
        0 => letter.to_string(),
        more => format!("{letter}{}", id(more - 1)),
    }
}

/// The scopes of waves, nested in `run`.
fn header(signals: &[Signal]) -> String {
    let mut text =
        "$version honest $end\n$comment no date $end\n$timescale 1 us $end\n".to_string();
    text += "$scope module run $end\n";
    let mut open = "run";
    for (number, Signal { scope, name, bits }) in signals.iter().enumerate() {
        if scope != open {
            text += if open == "run" { "" } else { "$upscope $end\n" };
            let inner = scope.trim_start_matches("run.");
            text += &format!("$scope module {inner} $end\n");
            open = scope;
        }
        text += &format!("$var wire {bits} {} {name} $end\n", id(number));
    }
    text += if open == "run" { "" } else { "$upscope $end\n" };
    text + "$upscope $end\n$enddefinitions $end\n"
}

pub fn vcd(waves: &Waves) -> String {
    let mut text = header(&waves.signals);
    let mut before: Option<&Vec<u32>> = None;
    for (tick, now) in waves.ticks.iter().enumerate() {
        text += &format!("#{tick}\n");
        text += if tick == 0 { "$dumpvars\n" } else { "" };
        for (signal, value) in now.iter().enumerate() {
            if before.is_none_or(|before| before[signal] != *value) {
                text += &format!("b{value:b} {}\n", id(signal));
            }
        }
        text += if tick == 0 { "$end\n" } else { "" };
        before = Some(now);
    }
    text
}

pub fn drawn(picture: Picture, wanted: &Wanted) -> String {
    match picture {
        Picture::Drawn(Document::Page) => page(&wanted.marks),
        Picture::Drawn(Document::Figure) => figure(&wanted.marks),
        Picture::Waves => vcd(&wanted.waves),
    }
}

/// The program, with what it draws.
pub fn program(arguments: &[String], file: &[u8]) -> Ended {
    let [word, from] = arguments else {
        panic!("{arguments:?}");
    };
    assert_eq!(from, "-");
    let mut pictures = PICTURES.iter();
    let (_, picture) = pictures.find(|(name, _)| name == word).expect("a picture");
    let (output, errors) = match Wanted::of(file) {
        Ok(wanted) => (drawn(*picture, &wanted), String::new()),
        Err(refusal) => {
            let (number, phrase) = PHRASES[refusal as usize - 1];
            (
                String::new(),
                format!("picture: -: refused with {number}: {phrase}\n"),
            )
        }
    };
    let ended = Ended {
        well: errors.is_empty(),
        status: Some(i32::from(!errors.is_empty())),
        output: output.into_bytes(),
        errors: errors.into_bytes(),
    };
    let refusal = Run::read(file).err();
    assert_eq!(
        refusal.map(|refusal| refused(&ended, refusal)),
        refusal.map(|_| Ok(()))
    );
    ended
}

#[test]
fn ids() {
    let ids: std::collections::BTreeSet<String> = (0..20_000).map(id).collect();
    assert_eq!(ids.len(), 20_000);
    assert_eq!([0, 93, 94, 95].map(id), ["!", "~", "!!", "\"!"]);
}
