//! What holds of each text, however damaged it is.

#![allow(
    clippy::arithmetic_side_effects,
    clippy::expect_used,
    clippy::indexing_slicing,
    clippy::panic,
    reason = "a test fails by a panic"
)]

use edd_ide::{Document, Fix, RenameError, Span, Typed};
use edd_source::Confidence;
use proptest::collection::vec;
use proptest::prelude::*;
use proptest::sample::select;
use proptest::test_runner::{Config, RngAlgorithm, TestRng, TestRunner};

/// A description with one of most things, in lines.
const LINES: [&str; 14] = [
    "MANUFACTURER 1, DEVICE_TYPE 2, DEVICE_REVISION 3, DD_REVISION 4",
    "VARIABLE a { LABEL \"|en|A|de|\u{c4}\"; TYPE INTEGER (2) { MIN_VALUE 1; MAX_VALUE b; } }",
    "VARIABLE b { CLASS CONTAINED; HANDLING IF (a == 1) { READ; } ELSE { READ & WRITE; }",
    "    TYPE ENUMERATED { { 1, \"One\" }, { 2, \"Two\" } } } // b",
    "COLLECTION OF VARIABLE c { MEMBERS { x, a; y, b; } } /* \u{20ac} */",
    "ARRAY OF VARIABLE r { ELEMENTS { 1, a; 5, b; } }",
    "COMMAND k { NUMBER 7; OPERATION WRITE; TRANSACTION 1 { REQUEST { a } REPLY { 1, b } }",
    "    RESPONSE_CODES { 0, SUCCESS, \"ok\"; } }",
    "MENU m { LABEL \"M\"; ITEMS { c.x (HIDDEN), a, SELECT (b) { CASE 1: n; } } }",
    "METHOD n { LABEL \"N\"; DEFINITION { int i = 1; { int j; j = r[1] + c.x; }",
    "    if (b != 2) send_command_trans(7, 1); else DELAY(i, \"a\");",
    "    switch (a) { case 1: break; default: return; } } }",
    "\"",
    "@ /*",
];

/// What is put into a description.
const PIECES: [&str; 16] = [
    "{",
    "}",
    "(",
    ")",
    "[",
    "]",
    ";",
    ",",
    ".",
    "\"",
    "|",
    "\n",
    "VARIABLE ",
    "a",
    "==",
    "/*",
];

fn texts() -> impl Strategy<Value = String> {
    let lines = vec(select(&LINES[..]), 1..14);
    let changes = vec(
        (
            any::<prop::sample::Index>(),
            0..6_usize,
            select(&PIECES[..]),
        ),
        0..4,
    );
    (lines, changes).prop_map(|(lines, changes)| {
        let mut letters: Vec<char> = lines.join("\n").chars().collect();
        for (place, length, piece) in changes {
            let start = place.index(letters.len() + 1);
            let end = (start + length).min(letters.len());
            letters.splice(start..end, piece.chars());
        }
        letters.into_iter().collect()
    })
}

/// Runs a test on 256 texts and places, or as many as `PROPTEST_CASES` says.
fn try_places(test: impl Fn(&Document, usize)) {
    let config = Config {
        failure_persistence: None,
        ..Config::default()
    };
    let random = TestRng::from_seed(RngAlgorithm::ChaCha, &[7; 32]);
    let places = (texts(), any::<prop::sample::Index>());
    let ran = TestRunner::new_with_rng(config, random).run(&places, |(text, place)| {
        let byte = place.index(text.len() + 2);
        test(&Document::new(text), byte);
        Ok(())
    });
    if let Err(failure) = ran {
        panic!("{failure}");
    }
}

fn apply(document: &Document, edits: Vec<edd_ide::Edit>) -> String {
    let confidence = Confidence::Sure;
    let fix = Fix { edits, confidence };
    let text = fix.apply(document.text().as_bytes());
    String::from_utf8(text.expect("edits in the text, in order")).expect("a text")
}

#[test]
fn edits_of_a_layout_give_what_fmt_gives() {
    try_places(|document, _| {
        let source = document.text();
        let formatted = edd_fmt::format(source.as_bytes());
        let formatted = formatted.map_or(source.to_owned(), |bytes| {
            String::from_utf8(bytes).expect("a text")
        });
        assert_eq!(apply(document, document.format_edits()), formatted);
    });
}

#[test]
fn edits_of_parts_are_those_of_the_whole() {
    try_places(|document, byte| {
        let length = document.text().len();
        let (before, behind) = (
            Span {
                start: 0,
                end: byte,
            },
            Span {
                start: byte,
                end: length,
            },
        );
        let mut parts = document.format_edits_in(before);
        parts.extend(document.format_edits_in(behind));
        parts.dedup();
        let whole = document.format_edits();
        let crosses = |edit: &&edd_ide::Edit| edit.span.start < byte && byte < edit.span.end;
        assert_eq!(
            parts.len() + whole.iter().filter(crosses).count(),
            whole.len()
        );
    });
}

/// The places behind each character that may be typed, with what it is.
fn typed_places(text: &str) -> impl Iterator<Item = (usize, Typed)> {
    let places = text.char_indices();
    places.filter_map(|(byte, character)| {
        let typed = Typed::from_text(&character.to_string())?;
        Some((byte + character.len_utf8(), typed))
    })
}

#[test]
fn what_is_typed_lays_out_lines_before_it_and_keeps_the_layout_of_the_whole() {
    try_places(|document, _| {
        let source = document.text();
        let Ok(wanted) = edd_fmt::format(source.as_bytes()) else {
            return;
        };
        for (byte, typed) in typed_places(source) {
            let edits = document.format_edits_typed(byte, typed);
            assert!(edits.iter().all(|edit| edit.span.end < byte.max(1)));
            let text = apply(document, edits);
            let formatted = edd_fmt::format(text.as_bytes()).expect("tokens");
            assert_eq!(formatted, wanted, "{typed:?} at {byte} of {source:?}");
        }
    });
}

#[test]
fn what_is_typed_changes_nothing_of_a_layout() {
    try_places(|document, _| {
        let Ok(formatted) = edd_fmt::format(document.text().as_bytes()) else {
            return;
        };
        let formatted = Document::new(String::from_utf8(formatted).expect("a text"));
        for (byte, typed) in typed_places(formatted.text()) {
            assert_eq!(formatted.format_edits_typed(byte, typed), []);
        }
    });
}

#[test]
fn a_fix_leaves_less_wrong() {
    try_places(|document, byte| {
        for found in document.quick_fixes(Span::before(byte)) {
            let text = apply(document, found.fix.edits.clone());
            let after = Document::new(text);
            let wrong = |document: &Document| {
                let report = document.report();
                let first = report.shown.first().and_then(|found| found.span);
                let count = report.shown.len() + report.more;
                (
                    report.is_refused,
                    count,
                    first.map_or(usize::MAX, |it| it.start),
                )
            };
            let (was, is) = (wrong(document), wrong(&after));
            let is_better = (was.0 && !is.0) || is.1 < was.1 || (was.0 && is.2 > was.2);
            assert!(is_better, "{}: {was:?}, {is:?}", found.title);
        }
    });
}

#[test]
fn a_name_that_is_changed_can_be_changed_back() {
    try_places(|document, byte| {
        let Ok(places) = document.rename(byte, "renamed") else {
            return;
        };
        let old = places[0].text(document.text()).expect("a name").to_owned();
        let edits = |places: &[Span], name: &str| {
            let edit = |span: &Span| edd_ide::Edit {
                span: *span,
                text: name.to_owned(),
            };
            places.iter().map(edit).collect::<Vec<_>>()
        };
        let renamed = Document::new(apply(document, edits(&places, "renamed")));
        let there = match renamed.rename(places[0].start, &old) {
            Ok(there) => there,
            // The text declares the name twice.
            Err(RenameError::Clash(other)) => {
                assert_eq!(other.text(renamed.text()), Some(old.as_str()));
                return;
            }
            Err(error) => panic!("{error}"),
        };
        assert_eq!(there.len(), places.len());
        assert_eq!(apply(&renamed, edits(&there, &old)), document.text());
        assert_eq!(renamed.report().is_refused, document.report().is_refused);
    });
}

#[test]
fn what_is_selected_grows_from_the_place_to_the_text() {
    try_places(|document, byte| {
        let spans = document.selections(byte);
        for pair in spans.windows(2) {
            let [inner, outer] = pair else {
                panic!("two spans");
            };
            assert!(
                outer.start <= inner.start && inner.end <= outer.end,
                "{spans:?}"
            );
        }
        let whole = spans.last().expect("the text");
        assert_eq!(whole.range(), 0..document.text().len());
    });
}

#[test]
fn words_come_in_their_order() {
    try_places(|document, _| {
        let tokens = document.semantic_tokens();
        for pair in tokens.windows(2) {
            assert!(pair[0].span.end <= pair[1].span.start);
        }
    });
}
