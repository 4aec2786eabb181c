//! The diagram in a real browser, used with the mouse and with the keys (docs/PICTURES.md). It needs
//! Chromium: `$CHROMIUM`, or else `chromium`.
//!
//!   cargo test --offline --manifest-path picture/Cargo.toml --test browser -- --ignored --test-threads=1 --nocapture
//!
//! With `PICTURE_SHOTS` a folder, pictures of the pages are put there.

#[path = "browser/chromium.rs"]
mod chromium;
#[path = "browser/files.rs"]
mod files;
#[path = "browser/json.rs"]
mod json;
#[path = "browser/keys.rs"]
mod keys;
#[path = "browser/long.rs"]
mod long;
#[path = "browser/page.rs"]
mod page;

use gondzselu::HELD;
use page::Page;

const K9: &str = "examples/k9.run";
const TICKETS: &str = "examples/tickets.run";

/// What is lit for operation 2 of K9: task 0's update of register 1. Its message is held at place 11,
/// and the broadcast of operation 0 that card 1 takes at place 13 releases it.
const K9_HELD: &str = "update of 2, update-reply of 2, s8, s9, s10, s11, s13, s15, value 15/1/1";

/// What is lit for operation 0 of K9: task 2's update of register 0, broadcast 1.
const K9_BROADCAST: &str = "update of 0, s0, s1, s2, s3, s4, s13, s14, value 4/0/0, value 14/1/0";

/// What is lit for operation 1 of K9: task 0's read, which sends nothing.
const K9_READ: &str = "s5, s6, s7";

/// What is lit for operation 1 of K10: task 0's read of register 1. The reply is held at place 11 until
/// card 0 takes broadcast 1 at place 14.
const K10_HELD: &str = "read of 1, read-reply of 1, s5, s6, s7, s8, s9, s10, s11, s14, s17, s18";

#[test]
#[ignore = "needs Chromium"]
fn k9_opens_and_fetches_nothing() {
    let mut page = Page::of(K9);
    assert_eq!(page.ask("document.title"), "k9.run");
    assert_eq!(page.now(), "s0");
    assert_eq!(page.lit(), "");
    page.shot("k9");
    page.quiet();
}

/// The tests before and after this one see what they say is not there.
#[test]
#[ignore = "needs Chromium"]
fn faults_are_seen() {
    let good = "<!DOCTYPE html><html><head><title>t</title>";
    let faults = |html: String| {
        let mut page = Page::of_html(&html);
        (page.faults().len(), page.requests().len())
    };
    assert_eq!(faults(good.to_string()), (0, 1));
    assert_ne!(faults(format!("{good}<script>none();</script>")).0, 0);
    let error = "<script>console.error('no')</script>";
    assert_ne!(faults(format!("{good}{error}")).0, 0);
    let other = faults(format!("{good}<img src=\"other.png\"/>"));
    assert_ne!(other.0, 0);
    assert_eq!(other.1, 2);
    let policy = "<meta http-equiv=\"Content-Security-Policy\" content=\"default-src 'none'\"/>";
    assert_ne!(
        faults(format!("{good}{policy}<img src=\"other.png\"/>")).0,
        0
    );
}

/// Steps by what the answer says of them; messages, values and holds by what is known of each run.
#[test]
#[ignore = "needs Chromium"]
fn marks_are_those_of_the_answer() {
    let runs = [
        (files::read(K9), [3, 3, 1]),
        (files::k10(), [3, 2, 1]),
        // Three updates on two cards, one of them delivered by card 1 alone, and a reply.
        (files::read(TICKETS), [4, 5, 1]),
    ];
    for (file, counts) in runs {
        let mut page = Page::of_bytes(&file);
        let results = files::results(&file);
        let of = |results: &[u8], is: fn(u8) -> bool| {
            let places = (0..results.len()).filter(|&place| is(results[place]));
            places
                .map(|place| format!("s{place}"))
                .collect::<Vec<_>>()
                .join(", ")
        };
        let held = |result| result == HELD;
        let refused = |result| result != 0 && result != HELD;
        assert_eq!(page.ask("ask.names('.step')"), of(&results, |_| true));
        assert_eq!(
            page.ask("ask.names('.step.taken')"),
            of(&results, |result| result == 0)
        );
        assert_eq!(page.ask("ask.names('.step.held')"), of(&results, held));
        assert_eq!(
            page.ask("ask.names('.step.refused')"),
            of(&results, refused)
        );
        let said =
            page.ask("ask.all('.step').map(function (s) { return s.dataset.result; }).join(' ')");
        let result = results.iter().map(u8::to_string).collect::<Vec<_>>();
        assert_eq!(said, result.join(" "));
        let count = ["message", "value", "hold"].map(|kind| {
            page.number(&format!("document.querySelectorAll('.{kind}').length")) as usize
        });
        assert_eq!(count, counts);
        let without = "ask.all('.step, .value, .message, .message > path').filter(function (mark) { \
            var first = mark.firstElementChild; \
            return !first || first.tagName !== 'title' || first.textContent.trim() === ''; }).length";
        assert_eq!(page.number(without), 0.0, "marks without a title");
        page.quiet();
    }
}

#[test]
#[ignore = "needs Chromium"]
fn a_click_lights_an_operation_up() {
    let mut page = Page::of(K9);
    page.click("#s11");
    assert_eq!(page.lit(), K9_HELD);
    assert_eq!(page.now(), "s11");
    let title = page.ask("document.querySelector('#s11 title').textContent");
    assert!(
        title.contains("held until card 1 has taken broadcast 1"),
        "{title}"
    );
    assert_eq!(page.said(), title);
    page.shot("k9-operation-2");
    // It stays lit when the mouse goes.
    page.hover_nothing();
    assert_eq!(page.lit(), K9_HELD);
    page.key("Escape");
    assert_eq!(page.lit(), "");

    // Each kind of mark lights its operation up; where nothing is, a click ends it.
    for (mark, lit) in [
        ("#s0", K9_BROADCAST),
        ("#s6", K9_READ),
        // The step that releases is of the broadcast's operation.
        ("#s13", K9_BROADCAST),
        (".value[data-place='15']", K9_HELD),
        (".value[data-place='4']", K9_BROADCAST),
        (".message[data-op='2'] .outbox", K9_HELD),
        (".message[data-op='2'] .flight", K9_HELD),
        (".message[data-op='2'] .hold", K9_HELD),
        (".message[data-op='2'] .inbox", K9_HELD),
        (".message[data-kind='update-reply'] .outbox", K9_HELD),
        (".message[data-op='0'] .flight", K9_BROADCAST),
        // A refused step is of no operation.
        ("#s12", ""),
    ] {
        page.click(mark);
        assert_eq!(page.lit(), lit, "a click on {mark}");
        page.click_nothing();
        assert_eq!(page.lit(), "", "a click on nothing");
    }
    page.quiet();
}

#[test]
#[ignore = "needs Chromium"]
fn the_mouse_lights_what_it_is_on() {
    let mut page = Page::of(K9);
    for (mark, lit) in [
        ("#s11", K9_HELD),
        ("#s7", K9_READ),
        (".value[data-place='14']", K9_BROADCAST),
        (".message[data-op='2'] .flight", K9_HELD),
    ] {
        page.hover(mark);
        assert_eq!(page.lit(), lit, "the mouse on {mark}");
        page.hover_nothing();
        assert_eq!(page.lit(), "", "the mouse on nothing");
    }
    // It does not move the present step, and goes before what was clicked.
    assert_eq!(page.now(), "s0");
    page.click("#s6");
    page.hover("#s11");
    assert_eq!(page.lit(), K9_HELD);
    page.hover_nothing();
    assert_eq!(page.lit(), K9_READ);
    page.hover("#s11");
    page.hover("#said");
    assert_eq!(page.lit(), K9_READ);
    page.quiet();
}

#[test]
#[ignore = "needs Chromium"]
fn k10_the_reply_is_held() {
    let mut page = Page::of_bytes(&files::k10());
    let hold = "document.querySelector('.hold').dataset";
    let hold = ["since", "until", "card"].map(|of| page.ask(&format!("{hold}.{of}")));
    assert_eq!(hold, ["11", "14", "0"]);
    assert_eq!(
        page.ask("document.querySelector('#s14').dataset.frees"),
        "1"
    );
    for mark in [
        "#s11",
        "#s18",
        ".hold",
        ".message[data-kind='read-reply'] .flight",
    ] {
        page.click(mark);
        assert_eq!(page.lit(), K10_HELD, "a click on {mark}");
        page.key("Escape");
        assert_eq!(page.lit(), "");
    }
    page.click("#s11");
    let title = page.ask("document.querySelector('#s11 title').textContent");
    assert!(
        title.contains("held until card 0 has taken broadcast 1"),
        "{title}"
    );
    assert_eq!(page.said(), title);
    page.shot("k10-operation-1");
    page.quiet();
}

/// No text lies on another, and nothing is cut off.
#[test]
#[ignore = "needs Chromium"]
fn texts_do_not_overlap() {
    let runs = [
        ("K9", files::read(K9)),
        ("K10", files::k10()),
        ("tickets", files::read(TICKETS)),
        ("counter", files::read("examples/counter.run")),
        ("the widest", files::widest()),
    ];
    for (name, file) in runs {
        let mut page = Page::of_bytes(&file);
        for kind in [
            ".label",
            ".value",
            ".word",
            ".holds",
            "#axis text",
            "#names text",
        ] {
            let overlaps = page.ask(&format!("ask.overlaps('{kind}')"));
            assert_eq!(overlaps, "", "{name}, {kind}");
        }
        let all = page.ask("ask.overlaps('#world text')");
        assert_eq!(all, "", "{name}, all texts");
        let outside = page.ask("ask.outside('.step, .value, .message')");
        assert_eq!(outside, "", "{name}: cut off");
        page.quiet();
    }
}

/// A run of no steps, and one with as many cards, tasks and registers as there can be.
#[test]
#[ignore = "needs Chromium"]
fn the_smallest_and_the_widest_open() {
    let mut page = Page::of_bytes(&files::K1);
    assert_eq!(page.ask("ask.names('.step')"), "");
    assert_eq!(page.said(), "no steps");
    // Nothing to go to, to find or to light.
    page.keys(
        "ArrowRight ArrowLeft Home End ArrowDown ArrowUp PageDown h r Enter + - f 0 j 5 Enter",
    );
    for button in [
        "next", "last", "held", "refused", "in", "out", "fit", "same",
    ] {
        page.click(&format!("#{button}"));
    }
    assert_eq!(page.now() + &page.lit(), "");
    page.shot("k1");
    page.quiet();

    let file = files::widest();
    let mut page = Page::of_bytes(&file);
    let count = |page: &mut Page, of| page.number(&format!("ask.all('{of}').length")) as usize;
    assert_eq!(count(&mut page, ".step.taken"), files::results(&file).len());
    assert_eq!(count(&mut page, ".value"), 8 * 16);
    assert_eq!(count(&mut page, ".message"), 16);
    assert_eq!(count(&mut page, "#copies td"), 8 * 32);
    page.key("End");
    assert!(
        page.holds("ask.inFrame('.now rect')"),
        "the last step is seen"
    );
    page.click(".now");
    assert_eq!(count(&mut page, ".step.lit"), 3 + 8 + 8 + 1);
    assert_eq!(count(&mut page, ".value.lit"), 8);
    page.shot("widest");
    page.quiet();
}
