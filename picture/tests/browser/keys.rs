//! A page without the mouse.

use super::page::Page;
use super::{K9, K9_HELD, K9_READ, TICKETS};

#[test]
#[ignore = "needs Chromium"]
fn arrows_go_through_the_run() {
    let mut page = Page::of(K9);
    assert_eq!((page.now(), page.focus()), ("s0".into(), "frame".into()));
    for (keys, now) in [
        ("ArrowRight", "s1"),
        ("ArrowRight ArrowRight", "s3"),
        ("ArrowLeft", "s2"),
        ("End", "s15"),
        ("ArrowRight", "s15"),
        ("ArrowLeft", "s14"),
        ("Home", "s0"),
        ("ArrowLeft", "s0"),
        ("PageDown", "s15"),
        ("PageUp", "s0"),
    ] {
        page.keys(keys);
        assert_eq!(page.now(), now, "after {keys}");
        let title = page.ask("document.querySelector('.now title').textContent");
        assert_eq!(page.said(), title);
        assert!(
            page.holds("ask.inFrame('.now rect, .now path')"),
            "{now} is seen"
        );
    }
    page.quiet();
}

#[test]
#[ignore = "needs Chromium"]
fn arrows_go_along_an_operation() {
    let mut page = Page::of(K9);
    page.keys("j 8 Enter Escape");
    let mut way = vec![page.now()];
    for _ in 0..3 {
        page.key("ArrowDown");
        way.push(page.now());
    }
    // Place 13 is of the broadcast's operation; so that the way goes on, this one is lit first.
    assert_eq!(way, ["s8", "s9", "s10", "s11"]);
    page.key("Enter");
    assert_eq!(page.lit(), K9_HELD);
    for (key, now) in [
        ("ArrowDown", "s13"),
        ("ArrowDown", "s15"),
        ("ArrowDown", "s15"),
        ("ArrowUp", "s13"),
        ("ArrowUp", "s11"),
        ("ArrowUp", "s10"),
        ("ArrowUp", "s9"),
        ("ArrowUp", "s8"),
        ("ArrowUp", "s8"),
    ] {
        page.key(key);
        assert_eq!(page.now(), now);
        assert_eq!(page.lit(), K9_HELD, "it stays lit");
    }
    page.key("Escape");
    assert_eq!(page.lit(), "");
    // Enter lights up, and Enter ends it.
    page.keys("Home ArrowRight ArrowRight ArrowRight ArrowRight ArrowRight Enter");
    assert_eq!((page.now(), page.lit()), ("s5".into(), K9_READ.into()));
    page.key("Enter");
    assert_eq!(page.lit(), "");
    page.quiet();
}

#[test]
#[ignore = "needs Chromium"]
fn letters_find_what_is_held_and_refused() {
    let mut page = Page::of(K9);
    for (key, now) in [("h", "s11"), ("h", "s11"), ("r", "s12"), ("r", "s12")] {
        page.key(key);
        assert_eq!(page.now(), now, "after {key}");
    }
    // A refused step is of no operation: Enter lights nothing, and arrows do not go along it.
    page.keys("Enter ArrowDown ArrowUp");
    assert_eq!((page.now(), page.lit()), ("s12".into(), String::new()));
    let refused = "step 12: the card has nothing to deliver";
    assert!(page.said().starts_with(refused), "{}", page.said());
    page.quiet();

    let mut page = Page::of(TICKETS);
    page.keys("h");
    assert_eq!(page.now(), "s22");
    page.keys("r");
    assert_eq!(page.now(), "s22", "nothing is refused there");
    page.quiet();
}

#[test]
#[ignore = "needs Chromium"]
fn a_number_jumps_to_its_step() {
    let mut page = Page::of(K9);
    for (typed, now) in [
        ("1 3", "s13"),
        ("0", "s0"),
        ("7", "s7"),
        ("9 9", "s15"),
        ("- 3", "s0"),
    ] {
        page.key("j");
        assert_eq!(page.focus(), "jump");
        page.keys(&format!("{typed} Enter"));
        assert_eq!(page.now(), now, "after {typed}");
        // Back to the diagram.
        page.key("Escape");
        assert_eq!(page.focus(), "frame");
    }
    page.key("ArrowRight");
    assert_eq!(page.now(), "s1");
    page.quiet();
}

/// All there is to press or to fill is reached by Tab, in the order in which it is seen, and works.
#[test]
#[ignore = "needs Chromium"]
fn tab_reaches_all_controls() {
    let mut page = Page::of(K9);
    let order = page.ask(
        "ask.all('#bar button, #bar input, #bar select').map(function (e) { return e.id; }).join(' ')",
    );
    let mut order: Vec<&str> = order.split(' ').collect();
    assert!(order.len() >= 10, "{order:?}");
    order.push("frame");
    // From the start of the page; the diagram has the focus when it opens.
    page.ask("document.activeElement.blur(); getSelection().collapse(document.body, 0)");
    for id in &order {
        page.key("Tab");
        assert_eq!(page.focus(), *id);
        let ring = page.ask("getComputedStyle(document.activeElement).outlineStyle");
        assert_ne!(ring, "none", "the focus on {id} is seen");
    }

    let mut press = |id: &str, key: &str| {
        page.ask(&format!("document.getElementById('{id}').focus()"));
        page.key(key);
        page.settle();
        page.now()
    };
    assert_eq!(press("next", "Enter"), "s1");
    assert_eq!(press("last", "Enter"), "s0");
    assert_eq!(press("held", "Enter"), "s11");
    assert_eq!(press("refused", "Enter"), "s12");
    let wide = "document.querySelector('#world').getBoundingClientRect().width";
    let before = page.number(wide);
    page.ask("document.getElementById('in').focus()");
    page.key("Enter");
    assert!(page.number(wide) > before * 1.2, "wider");
    page.ask("document.getElementById('pick').focus()");
    page.keys("o");
    // A letter chooses the first operation that begins with it, in the browser's own way.
    assert_ne!(page.lit(), "");
    page.quiet();
}
