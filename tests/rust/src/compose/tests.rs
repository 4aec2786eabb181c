//! Lines, their order, and texts of `view`.

use super::*;
use crate::folder;
use crate::generate;
use crate::model::files::Run;
use crate::named;
use crate::view::view;

/// What `view` prints of a file gives the file again.
#[test]
fn what_is_printed_comes_back() {
    let mut accepted = 0;
    for item in 0..600 {
        let (kind, file) = generate::file(8, item);
        if Run::read(&file).is_ok() {
            assert!(
                compose(view(&file).as_bytes()) == Ok(file),
                "{item} {kind:?}"
            );
            accepted += 1;
        }
    }
    assert!(accepted > 400);
}

/// What rt gives the program, and what it must write: K9.
#[test]
fn the_example_of_the_crate() {
    let read = |name| std::fs::read(folder::of_tree("crates/compose").join(name)).expect(name);
    let mut runs = named::runs().into_iter();
    let k9 = runs.find(|run| run.name == "K9").expect("a named run");
    assert_eq!(read("stdin"), view(&k9.file).into_bytes());
    assert_eq!(read("stdout"), k9.file);
}

/// The page's own example is a run.
#[test]
fn the_example_of_the_page() {
    let page = folder::of_tree("crates/compose/README.md");
    let page = std::fs::read_to_string(page).expect("the page");
    let example = page.split("```\n").nth(1).expect("an example");
    assert!(compose(example.as_bytes()).is_ok());
}

#[test]
fn long_texts() {
    let good = "cards 1\ntask 0 home card 0\nregister 0 primary card 0 copies on 0\n";
    let before = |length: usize| "\n".repeat(length - good.len()) + good;
    let after = |length: usize| good.to_string() + &"\n".repeat(length - good.len());
    let file = Ok(vec![1, 1, 1, 0, 0, 0, 1, 0]);
    let long = Err("the text is longer than 4194304 bytes".to_string());
    for text in [before(4_194_304), after(4_194_304)] {
        assert_eq!(compose(text.as_bytes()), file);
    }
    for text in [before(4_194_305), after(4_194_305)] {
        assert_eq!(compose(text.as_bytes()), long);
    }
    // A wrong line comes first; one that is cut is not judged but by its length.
    let line = |number: usize| Err(format!("line {number} is not understood"));
    assert_eq!(compose(&[b'x'; 4_194_305]), line(1));
    let first = "x\n".to_string() + &"\n".repeat(4_194_304);
    assert_eq!(compose(first.as_bytes()), line(1));
    let last = |empty: usize, rest: usize| "\n".repeat(empty) + &"x".repeat(rest);
    assert_eq!(compose(last(4_194_303, 1).as_bytes()), line(4_194_304));
    assert_eq!(compose(last(4_194_303, 2).as_bytes()), long);
    assert_eq!(compose(last(4_194_304 - 255, 256).as_bytes()), long);
    assert_eq!(
        compose(last(4_194_304 - 256, 257).as_bytes()),
        line(4_194_049)
    );
}

/// With its number, the 4,097th step is one too many too; with another it is out of place.
#[test]
fn numbered_steps() {
    let text = |last: usize| {
        let steps = (0..4_096).chain([last]);
        let steps = steps.map(|number| format!("{number} report task 0 taken\n"));
        "cards 1\n".to_string() + &steps.collect::<String>()
    };
    let message = |last| compose(text(last).as_bytes()).unwrap_err();
    assert_eq!(message(4_096), "line 4098 is one too many");
    assert_eq!(message(4_095), "line 4098 is out of place");
    assert_eq!(message(0), "line 4098 is out of place");
}
