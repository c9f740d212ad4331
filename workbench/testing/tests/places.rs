//! Where a file of tests names something, also while it is being written.

#![allow(
    clippy::indexing_slicing,
    clippy::unwrap_used,
    reason = "a test fails by a panic"
)]

use edd_source::Span;
use edd_testing::{Begun, NameSort, TestFault, TestFile, begun_in};

/// A place as it is written.
fn at(text: &str, span: Span) -> &str {
    span.text(text).unwrap()
}

/// The names of all tests, as they are written.
fn names(text: &str) -> Vec<String> {
    let file = TestFile::read(text);
    let names = file.tests.iter().flat_map(|test| &test.names);
    names.map(|name| at(text, name.span).to_owned()).collect()
}

#[test]
fn names_have_their_places() {
    let text = "source ../a.edd\n  device  b.edd \r\ntest  one  \n method  m  \r\n set x 1\nanswer 0 y=2 z=3\n= ask GET_DEV_VAR_VALUE \"a \\\" b\" x\n= value x 1\ntest two\nimage i\nshow\n~ variable v INTEGER 2\n~ ITEMS p q\n~ MEMBERS {x p}\n~ LABEL \"value x\"\n";
    let file = TestFile::read(text);
    assert!(file.faults.is_empty());
    let [one, two] = file.tests.as_slice() else {
        panic!("{file:?}");
    };
    assert_eq!(at(text, one.name), "one");
    assert_eq!(one.source.as_deref(), Some("../a.edd"));
    assert_eq!(one.device.as_deref(), Some("b.edd"));
    assert_eq!(two.source, None);
    let scripts: Vec<_> = one.script.iter().map(|line| at(text, *line)).collect();
    assert_eq!(scripts, ["set x 1", "answer 0 y=2 z=3"]);
    let files: Vec<_> = file.files.iter().map(|name| at(text, *name)).collect();
    assert_eq!(files, ["../a.edd", "b.edd"]);
    assert_eq!(
        names(text),
        ["m", "x", "y", "z", "x", "x", "v", "p", "q", "p"]
    );
    assert_eq!(one.names[0].sort, NameSort::Method);
    assert_eq!(one.names[1].sort, NameSort::Variable);
}

#[test]
fn names_in_lines_that_must_not_be_printed_have_places_too() {
    let text = "source a\ntest one\nmethod m\n~ value x 1\n! value y 2\n";
    let file = TestFile::read(text);
    let [one] = file.tests.as_slice() else {
        panic!("{file:?}");
    };
    let found: Vec<_> = one
        .names
        .iter()
        .map(|name| (at(text, name.span), name.sort))
        .collect();
    assert_eq!(found.len(), 3);
    assert_eq!(found[0], ("m", NameSort::Method));
    assert!(matches!(found[1], ("x", NameSort::Printed(_))));
    assert!(matches!(found[2], ("y", NameSort::Absent(_))));
}

#[test]
fn what_is_refused_is_left_out() {
    let text = "source a\ntest one\nset x 1\nsett y 2\ntest two\nmethod m\nmethod n\n> q\nset z 3";
    let file = TestFile::read(text);
    let faults: Vec<_> = file
        .faults
        .iter()
        .map(|(span, fault)| (at(text, *span).trim_end(), *fault))
        .collect();
    let wanted = [
        ("sett y 2", TestFault::UnknownLine),
        ("test one", TestFault::NothingToRun),
        ("method n", TestFault::Twice),
        ("> q", TestFault::Misplaced),
    ];
    assert_eq!(faults, wanted);
    assert_eq!(names(text), ["x", "m", "z"]);
}

#[test]
fn a_file_without_a_test_or_a_source_has_one_fault() {
    for (text, wanted) in [
        ("", TestFault::NoTests),
        ("source a.edd", TestFault::NoTests),
        ("# nothing\n", TestFault::NoTests),
        ("test t\nshow", TestFault::NoSource),
        ("set x 1\nsource s\ntest t\nopen\n", TestFault::BeforeTest),
    ] {
        let file = TestFile::read(text);
        let faults: Vec<_> = file.faults.iter().map(|(_, fault)| *fault).collect();
        assert_eq!(faults, [wanted], "{text:?}");
        let is_inside = |(span, _): &(Span, _)| span.end <= text.len();
        assert!(file.faults.iter().all(is_inside), "{text:?}");
    }
    assert_eq!(TestFile::read("source a.edd").files.len(), 1);
    assert!(TestFile::read("# nothing\n").tests.is_empty());
}

#[test]
fn a_refusal_that_is_expected_is_known() {
    let text = "source s\ntest t\nmethod none\n= refused 301 NO_METHOD none\ntest u\nmethod m\n= end ended\n";
    let file = TestFile::read(text);
    assert!(file.tests[0].is_refused);
    assert!(!file.tests[1].is_refused);
}

#[test]
fn what_is_begun_is_known() {
    let is_method = |before, start| matches!(begun_in(before), Some(Begun::Method(span)) if span.range() == (start..before.len()));
    assert!(is_method("method cal", 7));
    assert!(is_method(" method  ", 9));
    assert_eq!(begun_in(" answer 0 "), Some(Begun::Script(1)));
    for before in ["", "# method ", "test ", "= value ", "show", "method"] {
        assert_eq!(begun_in(before), None, "{before}");
    }
}
