//! Runs of 4,096 steps: what is slow would show here. Times are printed, and nothing is asked of them.

use std::time::Instant;

use super::files;
use super::page::Page;

const LONG: [&str; 2] = ["crates/runs/data/guided.run", "crates/runs/data/full1.run"];

/// The width of the diagram.
const WIDE: &str = "document.querySelector('#world').getBoundingClientRect().width";

/// Prints how long something takes until it is drawn.
fn timed(page: &mut Page, what: &str, act: impl FnOnce(&mut Page)) {
    let start = Instant::now();
    act(page);
    page.settle();
    println!("    {what}: {} ms", start.elapsed().as_millis());
}

#[test]
#[ignore = "needs Chromium"]
fn long_runs_open_and_move() {
    for file in LONG {
        let mut page = Page::of(file);
        println!("{file}: loaded in {} ms", page.loaded.as_millis());
        timed(&mut page, "first drawn after", |_| {});
        assert_eq!(page.number("ask.all('.step').length"), 4096.0);
        page.shot(&format!("long-{}", short(file)));
        timed(&mut page, "50 times right", |page| {
            for _ in 0..50 {
                page.key("ArrowRight");
            }
        });
        assert_eq!(page.now(), "s50");
        timed(&mut page, "End", |page| page.key("End"));
        timed(&mut page, "Home", |page| page.key("Home"));
        timed(&mut page, "lighting up an operation", |page| {
            page.key("Enter")
        });
        timed(&mut page, "lighting it no more", |page| page.key("Escape"));
        timed(&mut page, "zoom to all", |page| page.click("#fit"));
        page.shot(&format!("long-{}-all", short(file)));
        timed(&mut page, "back to 1:1", |page| page.click("#same"));
        page.quiet();
    }
}

fn short(file: &str) -> &str {
    let name = file.rsplit('/').next().unwrap_or(file);
    name.trim_end_matches(".run")
}

#[test]
#[ignore = "needs Chromium"]
fn a_jump_shows_its_step() {
    let mut page = Page::of(LONG[0]);
    for place in ["4095", "0", "2048", "17", "4000", "1"] {
        page.key("j");
        for digit in place.chars() {
            page.key(&digit.to_string());
        }
        page.keys("Enter Escape");
        page.settle();
        assert_eq!(page.now(), format!("s{place}"));
        let mark = format!("ask.inFrame('#s{place} rect, #s{place} path')");
        assert!(page.holds(&mark), "step {place} is seen");
        // Nothing lies over it: the mouse hits it.
        page.hover(&format!("#s{place}"));
    }
    page.quiet();
}

#[test]
#[ignore = "needs Chromium"]
fn zooming_changes_the_width_alone() {
    let mut page = Page::of(LONG[0]);
    let one = page.number(WIDE);
    let high = "document.querySelector('#world').getBoundingClientRect().height";
    let height = page.number(high);
    page.keys("j 3 0 0 0 Enter Escape");
    page.click("#in");
    let wider = page.number(WIDE);
    assert!((wider / one - 1.5).abs() < 0.01, "{wider} of {one}");
    assert!(
        page.holds("ask.inFrame('.now rect, .now path')"),
        "the present step stays"
    );
    page.click("#out");
    page.click("#out");
    let narrower = page.number(WIDE);
    assert!(
        (narrower * 1.5 / one - 1.0).abs() < 0.01,
        "{narrower} of {one}"
    );
    assert!(
        page.holds("ask.inFrame('.now rect, .now path')"),
        "the present step stays"
    );
    page.click("#same");
    assert_eq!(page.number(WIDE), one);
    page.click("#fit");
    let (wide, room) = (
        page.number(WIDE),
        page.number("document.querySelector('#frame').clientWidth - document.querySelector('#names').getBoundingClientRect().width"),
    );
    assert!(
        room - 2.0 <= wide && wide <= room,
        "all is {wide} wide, in {room}"
    );
    assert!(
        page.holds("var f = document.querySelector('#frame'); f.scrollWidth <= f.clientWidth"),
        "nothing is left to scroll"
    );
    assert_eq!(page.number(high), height);
    page.quiet();
}

/// The steps that the page is to light for an operation, by their attributes.
fn steps_of(page: &mut Page, operation: &str) -> String {
    page.ask(&format!(
        "ask.all('.step').filter(function (step) {{ var data = step.dataset; return data.op === '{operation}' || \
         (data.frees || '').split(' ').indexOf('{operation}') >= 0; }}).map(ask.name).join(', ')"
    ))
}

/// The first held message of a long run, at both ends of the zoom.
#[test]
#[ignore = "needs Chromium"]
fn lighting_works_in_a_long_run() {
    for file in LONG {
        let mut page = Page::of(file);
        let results = files::results(&files::read(file));
        let held = results.iter().position(|&result| result == gondzselu::HELD);
        let held = format!("s{}", held.expect("a held message"));
        page.key("h");
        page.settle();
        assert_eq!(page.now(), held);
        let operation = page.ask("document.querySelector('.now').dataset.op");
        let steps = steps_of(&mut page, &operation);
        for zoom in ["#same", "#fit"] {
            page.click(zoom);
            page.settle();
            page.hover(".now");
            if zoom == "#same" {
                assert_eq!(page.ask("ask.names('.step.lit')"), steps, "{zoom}");
                let others = format!("ask.all('.lit:not(.step)').filter(function (mark) {{ return mark.dataset.op !== '{operation}'; }}).length");
                assert_eq!(page.number(&others), 0.0);
            }
            assert_ne!(page.lit(), "");
            page.hover("#said");
            assert_eq!(page.lit(), "");
        }
        page.click("#same");
        page.click(".now");
        page.settle();
        page.shot(&format!("long-{}-held", short(file)));
        assert_eq!(page.ask("ask.names('.step.lit')"), steps);
        page.quiet();
    }
}

/// No text lies on another, as in the small runs.
#[test]
#[ignore = "needs Chromium"]
fn texts_do_not_overlap_in_a_long_run() {
    for file in LONG {
        let mut page = Page::of(file);
        for kind in [".label", ".value", ".word", ".holds", "#axis text"] {
            let overlaps = page.ask(&format!("ask.overlaps('{kind}')"));
            let first: String = overlaps.chars().take(500).collect();
            assert_eq!(first, "", "{file}, {kind}");
        }
        let outside = page.ask("ask.outside('.step, .value, .message')");
        assert_eq!(outside, "", "{file}: cut off");
        page.quiet();
    }
}
