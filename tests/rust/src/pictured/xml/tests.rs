//! What the reader reads, and what it refuses.

use super::*;

#[test]
fn a_document() {
    let text = "<!DOCTYPE html>\n<!-- a - b -->\n<html a=\"1 &lt; 2\" b-c = \"\">\n <p>x &amp;\
        &#65;&#x42;</p><br/><i \n/>\n<s><![CDATA[a < b && c]]>;</s></html >\n\n";
    let root = read(text).expect("a good one");
    assert_eq!((root.name, root.line, root.short), ("html", 3, false));
    assert_eq!(root.attribute("a"), Some("1 < 2"));
    assert_eq!(root.attribute("b-c"), Some(""));
    assert_eq!(root.attribute("b"), None);
    let inside: Vec<_> = root.elements().collect();
    let told = |element: &&Element| (element.line, element.short, element.text());
    assert_eq!(
        inside.iter().map(told).collect::<Vec<_>>(),
        [
            (4, false, "x &AB".into()),
            (4, true, "".into()),
            (4, true, "".into()),
            (6, false, "a < b && c;".into()),
        ]
    );
    assert_eq!(inside[3].raw, "<![CDATA[a < b && c]]>;");
    assert_eq!(root.text(), "\n \n");
}

#[test]
fn declarations() {
    for good in [
        "<?xml version=\"1.0\"?><a/>",
        "<?xml version=\"1.0\" encoding=\"UTF-8\"?>\n<!DOCTYPE a><a></a>",
        "<a>\u{e4} \u{2192} \t\r</a>",
    ] {
        assert!(read(good).is_ok(), "{good}");
    }
}

/// Each with words of what is said.
#[test]
fn what_is_refused() {
    let refused = [
        ("", "line 1: no root"),
        ("\n\n ", "line 3: no root"),
        ("<a>", "line 1: <a> of line 1 is not closed"),
        ("<a>\n<b>\n</a>", "</a> where <b> of line 2 is open"),
        ("<a><b></a></b>", "</a> where <b>"),
        ("<a/></a>", "</a> and nothing is open"),
        ("<a/>\n<a/>", "line 2: a second root"),
        ("<a/>x", "text outside the root"),
        ("x<a/>", "text outside the root"),
        ("&amp;<a/>", "text outside the root"),
        ("<a/><![CDATA[]]>", "a CDATA section outside the root"),
        ("<a>1 < 2</a>", "`<` that begins no tag"),
        ("<a><</a>", "`<` that begins no tag"),
        ("<a><1/></a>", "`<` that begins no tag"),
        ("<a>]]></a>", "`]]>` in text"),
        ("<a>b & c</a>", "`&` that begins no entity"),
        ("<a>b & c;</a>", "no such entity: & c;"),
        ("<a>&nbsp;</a>", "no such entity: &nbsp;"),
        ("<a>&#0;</a>", "no such entity"),
        ("<a>&#7;</a>", "no such entity"),
        ("<a>&#xD800;</a>", "no such entity"),
        ("<a>&#+65;</a>", "no such entity"),
        ("<a>&#;</a>", "no such entity"),
        ("<a b=c/>", "the value of b is not in double quotes"),
        ("<a b='c'/>", "the value of b is not in double quotes"),
        ("<a b/>", "no value of the attribute b"),
        ("<a b=\"1\" b=\"1\"/>", "two attributes b in <a>"),
        ("<a b=\"1\"c=\"1\"/>", "no blank before the attribute c"),
        ("<a b=\"<\"/>", "`<` in the value of b"),
        ("<a\n b=\"&\"/>", "line 2: the value of b: `&`"),
        ("<a b=\"1", "the value of b does not end"),
        ("<a b", "no value of the attribute b"),
        ("<a ", "the tag <a> does not end"),
        ("<a ?>", "the tag <a> does not end"),
        ("<a></a b=\"1\">", "the tag </a> does not end"),
        ("<a></ a>", "`</` that ends no element"),
        ("<a><!-- b -- c --></a>", "`--` in the comment"),
        ("<a><!-- b ---></a>", "`--` in the comment"),
        ("<a><!-- b </a>", "a comment does not end"),
        ("<a><![CDATA[ b </a>", "a CDATA section does not end"),
        ("<a><!DOCTYPE a></a>", "a document type that is not"),
        (
            "<!DOCTYPE a><!DOCTYPE a><a/>",
            "a document type that is not",
        ),
        (
            "<!DOCTYPE a SYSTEM \"b\"><a/>",
            "a document type that is no name",
        ),
        ("<!doctype a><a/>", "`<` that begins no tag"),
        ("<?xml version=\"1.1\"?><a/>", "an XML declaration with"),
        ("\n<?xml version=\"1.0\"?><a/>", "`<` that begins no tag"),
        ("<a><?b c?></a>", "`<` that begins no tag"),
        ("<a>\n\u{1b}</a>", "line 2: a control character"),
        ("<a>\0</a>", "a control character"),
        ("<a>\u{85}</a>", "a control character"),
        ("<a>\u{fffe}</a>", "a control character"),
    ];
    for (text, words) in refused {
        let said = read(text).expect_err(text);
        assert!(said.contains(words), "{text}: {said}");
    }
}

#[test]
fn deep() {
    let nested = |depth| "<a>".repeat(depth) + &"</a>".repeat(depth);
    assert!(read(&nested(100)).is_ok());
    let said = read(&nested(101)).expect_err("deeper");
    assert!(said.contains("elements too deep in each other"), "{said}");
}
