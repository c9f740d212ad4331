//! What is said of any text begins with the core's verdict, and every place lies inside of the text.

#![allow(clippy::expect_used, clippy::panic, reason = "a test fails by a panic")]

use core_std::alloc::Global;
use edd_check::{Levels, check};
use edd_report::{Diagnostic, MOST, Report};
use edd_source::Span;
use proptest::prelude::*;
use proptest::test_runner::{Config, RngAlgorithm, TestRng, TestRunner};
use std::time::{Duration, Instant};

/// The pieces of which texts are made.
const PIECES: &[&str] = &[
    "VARIABLE ",
    "METHOD ",
    "MENU ",
    "COMMAND ",
    "ARRAY OF VARIABLE ",
    "COLLECTION OF VARIABLE ",
    "p ",
    "q ",
    "unknown ",
    "{ ",
    "} ",
    "( ",
    ") ",
    "[ ",
    "] ",
    "; ",
    ", ",
    ": ",
    "= ",
    "== ",
    "& ",
    "LABEL ",
    "HELP ",
    "TYPE ",
    "INTEGER ",
    "ENUMERATED ",
    "DEFINITION { ",
    "ITEMS { ",
    "MEMBERS { ",
    "ELEMENTS { ",
    "REQUEST { ",
    "REPLY { ",
    "TRANSACTION { ",
    "RESPONSE_CODES { ",
    "IF (p == 1) { ",
    "ELSE { ",
    "if (p) { ",
    "else ",
    "while (p) ",
    "for (p = 0; p < 3; p++) ",
    "switch (p) { ",
    "case 1: ",
    "default: ",
    "int i; ",
    "p = 1; ",
    "send_command(1); ",
    "1 ",
    "0x1G ",
    "1.5 ",
    "\"text\" ",
    "\"",
    "\\",
    "/* ",
    "*/ ",
    "// ",
    "\n",
    "# 1 \"f\"\n",
    "ß",
    "\u{feff}",
    "UNIT ",
    "CHART ",
];

const HEAD: &str = "MANUFACTURER 1, DEVICE_TYPE 2, DEVICE_REVISION 3, DD_REVISION 4\n";

fn texts() -> impl Strategy<Value = String> {
    let pieces = proptest::collection::vec(proptest::sample::select(PIECES), 0..60);
    (any::<bool>(), pieces).prop_map(|(has_head, pieces)| {
        let head = if has_head { HEAD } else { "" };
        format!("{head}{}", pieces.concat())
    })
}

fn spans(diagnostic: &Diagnostic) -> impl Iterator<Item = Span> {
    let helps = diagnostic.helps.iter().filter_map(|help| help.span);
    let edits = diagnostic.fixes().flat_map(|fix| &fix.edits);
    let edits = edits.map(|edit| edit.span);
    diagnostic.span.into_iter().chain(helps).chain(edits)
}

fn expect_inside(text: &str, report: &Report) {
    for span in report.shown.iter().flat_map(spans) {
        assert!(span.start <= span.end, "{span:?} ends before it begins");
        assert!(text.get(span.range()).is_some(), "{span:?} leaves {text:?}");
    }
}

fn expect_verdict(text: &str) {
    let report = check(text.as_bytes(), &Levels::default());
    expect_inside(text, &report);
    assert!(report.shown.len() <= MOST);
    match edd_compiler::compile(Global, text.as_bytes()) {
        Ok(_) => assert!(!report.is_refused, "{text:?} compiles"),
        Err(fault) => {
            let refusal = fault.refusal(Global, text.as_bytes()).expect("memory");
            let first = report.shown.first().expect("a refusal is said");
            assert!(report.is_refused);
            assert_eq!(first.kind.to_string(), refusal.as_str());
        }
    }
}

#[test]
fn the_first_refusal_is_the_compilers() {
    let config = Config {
        cases: 2000,
        failure_persistence: None,
        ..Config::default()
    };
    let seed = TestRng::from_seed(RngAlgorithm::ChaCha, &[7; 32]);
    TestRunner::new_with_rng(config, seed)
        .run(&texts(), |text| {
            expect_verdict(&text);
            Ok(())
        })
        .expect("all texts are said so");
}

/// A piece again and again between a beginning and an end. A walk that goes back over all of them at each
/// one would take minutes.
fn expect_long(before: &str, piece: &str, behind: &str) {
    let pieces = 900_000_usize.checked_div(piece.len()).unwrap_or_default();
    expect_verdict(&[HEAD, before, &piece.repeat(pieces), behind].concat());
}

#[test]
fn long_texts_are_read_past_their_faults() {
    expect_long("METHOD m { DEFINITION { IF ( ", ";", " } }");
    expect_long("METHOD m { DEFINITION { ", "for ( ; ", " } }");
    expect_long("METHOD m { DEFINITION { x = ", "(", "; } }");
    expect_long("METHOD m { DEFINITION { ", "{ ", " IF ( ; } }");
    expect_long("MENU m { ITEMS { ", "a, , ", " } }");
    expect_long("", "VARIABLE v { LABEL \"a\";\n", "");
}

/// How long a text of so many faulty items takes at best.
fn time_of(item: impl Fn(usize) -> String, count: usize) -> Duration {
    let items: String = (0..count).map(item).collect();
    let text = [HEAD, &items].concat();
    let taken = (0..3).map(|_| {
        let begun = Instant::now();
        let report = check(text.as_bytes(), &Levels::default());
        assert!(count <= report.shown.len().saturating_add(report.more));
        begun.elapsed()
    });
    taken.min().expect("it is checked three times")
}

/// Four times as many faults take no more than nine times as long. Where each one was looked for among all
/// others, they would take sixteen times as long.
fn expect_linear(item: impl Fn(usize) -> String) {
    let (few, many) = (time_of(&item, 1000), time_of(&item, 4000));
    assert!(
        many < few.saturating_mul(9),
        "{}: {few:?} {many:?}",
        item(1)
    );
}

#[test]
fn time_grows_with_the_faults_as_with_the_text() {
    expect_linear(|i| format!("VARIABLE v{i} {{ LABEL \"p\" TYPE INTEGER; }}\n"));
    expect_linear(|i| format!("VARIABLE v{i} {{ TYPE INTEGER {{ MAX_VALUE q{i}; }} }}\n"));
    expect_linear(|i| format!("VARIABLE v{i} {{ TYPE INTEGER\u{a7}; }}\n"));
    expect_linear(|i| format!("VARIABLE v{i} {{ TYPE UNSIGNED INTEGER; DISPLAY FORMAT; }}\n"));
    expect_linear(|i| format!("METHOD m{i} {{ DEFINITION {{ int k; k = ; DELAY(a-b); }} }}\n"));
    expect_linear(|i| format!("METHOD m{i} {{ DEFINITION {{ int k; k == 5; if (k = 1) ; }} }}\n"));
}

/// A source with independent mistakes, and how many diagnostics it has.
fn expect_count(items: &str, count: usize) {
    let text = format!("{HEAD}{items}");
    let report = check(text.as_bytes(), &Levels::default());
    let said: Vec<String> = report.shown.iter().map(|it| it.kind.to_string()).collect();
    assert_eq!(report.shown.len(), count, "{items}: {said:?}");
}

#[test]
fn independent_mistakes_are_told_each() {
    expect_count(
        "VARIABLE p { LABEL \"p\" HELP \"h\"; CLASS; TYPE INTEGER }",
        3,
    );
    expect_count(
        "METHOD m { DEFINITION { int i; i = ; i = 1 2; i = 3 } }\nVARIABLE p { LABEL 5; TYPE INTEGER; }",
        4,
    );
}

#[test]
fn one_mistake_is_told_once() {
    for items in [
        "VARIABLE p { LABEL \"p\" TYPE INTEGER; }\nMETHOD m { DEFINITION { p = 1; } }",
        "VARIABLE { TYPE INTEGER; }\nMETHOD m { DEFINITION { p = 1; } }",
        "VARIABLE p { TYPE INTEGER; }\nMETHOD m { DEFINITION { for (p = 0 p < 3; p++) { p = p; } } }",
        "VARIABLE p { TYPE INTEGER {; MAX_VALUE 5; } }",
        "VARIABLE p { TYPE INTEGER; \nMENU m { ITEMS { p } }",
    ] {
        expect_count(items, 1);
    }
}
