//! How near the top the word is that is wanted, in places that were written down beforehand.

#![allow(clippy::expect_used, clippy::panic, reason = "a test fails by a panic")]

use edd_ide::{CompletionKind, Document};

const HEADER: &str = "MANUFACTURER 1, DEVICE_TYPE 2, DEVICE_REVISION 3, DD_REVISION 4\n";

/// What is declared in front of each place.
const ITEMS: &str = "VARIABLE mode { LABEL \"|en|Mode|de|Art\"; TYPE ENUMERATED { { 0, \"Manual\" }, { 1, \"Auto\" } } }
VARIABLE level { LABEL \"|en|Level|de|Pegel\"; TYPE INTEGER (2); }
COLLECTION OF VARIABLE limits { MEMBERS { low, level; high, level; } }
ARRAY OF VARIABLE taps { ELEMENTS { 1, level; 4, mode; } }
COMMAND read_level { NUMBER 1; OPERATION READ; TRANSACTION 0 { REQUEST { } REPLY { level } } TRANSACTION 2 { REQUEST { } REPLY { level } } }
COMMAND reset { NUMBER 42; OPERATION COMMAND; TRANSACTION { REQUEST { } REPLY { } } }
METHOD clean_up { LABEL \"Clean up\"; DEFINITION { } }
MENU root { LABEL \"Root\"; ITEMS { level } }
";

/// A place, which a `$` marks, behind the header alone or behind the items, and the word that is
/// wanted there.
const PLACES: [(&str, &str); 60] = [
    ("VAR$", "VARIABLE"),
    ("ME$", "MENU"),
    ("COM$", "COMMAND"),
    ("COLLECTION $", "OF"),
    ("COLLECTION OF $", "VARIABLE"),
    ("ARRAY OF $", "VARIABLE"),
    ("VARIABLE n { $ }", "LABEL"),
    ("VARIABLE n { LABEL \"n\"; $ }", "HELP"),
    ("VARIABLE n { TY$ }", "TYPE"),
    ("VARIABLE n { TYPE $ }", "INTEGER"),
    ("VARIABLE n { TYPE EN$ }", "ENUMERATED"),
    ("VARIABLE n { TYPE INTEGER { $ } }", "MIN_VALUE"),
    ("VARIABLE n { TYPE INTEGER { MAX_VALUE l$ } }", "level"),
    ("VARIABLE n { HANDLING $ }", "READ"),
    ("VARIABLE n { HANDLING READ & $ }", "WRITE"),
    ("VARIABLE n { VALIDITY $ }", "TRUE"),
    ("VARIABLE n { VALIDITY I$ }", "IF"),
    ("VARIABLE n { VALIDITY IF ($) { TRUE; } }", "mode"),
    ("VARIABLE n { VALIDITY IF (mode == $) { TRUE; } }", "1"),
    ("VARIABLE n { VALIDITY IF (mode != $) { TRUE; } }", "0"),
    (
        "VARIABLE n { VALIDITY IF (limits.$ > 1) { TRUE; } }",
        "high",
    ),
    ("VARIABLE n { VALIDITY IF (taps[$] > 1) { TRUE; } }", "4"),
    ("VARIABLE n { VALIDITY IF (mode) { TRUE; } $ }", "ELSE"),
    ("VARIABLE n { VALIDITY SELECT (mode) { $ } }", "CASE"),
    ("VARIABLE n { VALIDITY SELECT (mode) { CASE $ } }", "1"),
    (
        "VARIABLE n { VALIDITY SELECT (mode) { CASE 1: $ } }",
        "FALSE",
    ),
    (
        "VARIABLE n { VALIDITY SELECT (mode) { CASE 1: TRUE; $ } }",
        "DEFAULT",
    ),
    ("VARIABLE n { CLASS DYN$; }", "DYNAMIC"),
    ("VARIABLE n { LABEL \"|$\"; }", "en"),
    ("VARIABLE n { LABEL \"|en|Name|$\"; }", "de"),
    ("COMMAND n { $ }", "NUMBER"),
    ("COMMAND n { NUMBER 5; $ }", "OPERATION"),
    ("COMMAND n { OPERATION $ }", "READ"),
    ("COMMAND n { OPERATION C$ }", "COMMAND"),
    ("COMMAND n { TRANSACTION { $ } }", "REQUEST"),
    ("COMMAND n { TRANSACTION { REQUEST { } $ } }", "REPLY"),
    ("COMMAND n { TRANSACTION { REQUEST { $ } } }", "level"),
    (
        "COMMAND n { TRANSACTION { REQUEST { level ($) } } }",
        "INFO",
    ),
    ("COMMAND n { RESPONSE_CODES { 0, $ } }", "SUCCESS"),
    ("COMMAND n { RESPONSE_CODES { 0, MO$ } }", "MODE_ERROR"),
    ("MENU n { $ }", "LABEL"),
    ("MENU n { LABEL \"n\"; HELP \"n\"; $ }", "ITEMS"),
    ("MENU n { ITEMS { $ } }", "level"),
    ("MENU n { ITEMS { cl$ } }", "clean_up"),
    ("MENU n { ITEMS { level ($) } }", "READ_ONLY"),
    ("COLLECTION OF VARIABLE n { MEMBERS { m, $; } }", "level"),
    ("COLLECTION OF METHOD n { MEMBERS { m, $; } }", "clean_up"),
    ("ARRAY OF VARIABLE n { ELEMENTS { 1, $; } }", "mode"),
    ("METHOD n { $ }", "LABEL"),
    ("METHOD n { DEFINITION { int k; $ } }", "k"),
    ("METHOD n { DEFINITION { i$ } }", "if"),
    ("METHOD n { DEFINITION { int k; k = le$; } }", "level"),
    ("METHOD n { DEFINITION { if (mode == $) { } } }", "1"),
    ("METHOD n { DEFINITION { switch (mode) { case $ } } }", "1"),
    ("METHOD n { DEFINITION { send_command($); } }", "42"),
    ("METHOD n { DEFINITION { send_command_trans(1, $); } }", "2"),
    ("METHOD n { DEFINITION { level = limits.$; } }", "low"),
    ("METHOD n { DEFINITION { level = taps[$]; } }", "4"),
    (
        "METHOD n { DEFINITION { add_abort_method($); } }",
        "clean_up",
    ),
    ("METHOD n { DEFINITION { PUT$ } }", "PUT_MESSAGE"),
];

/// Places of a text that has no items before.
const BEFORE_ITEMS: [(&str, &str); 4] = [
    ("$", "MANUFACTURER"),
    ("MANUFACTURER 1, $", "DEVICE_TYPE"),
    ("MANUFACTURER 1, DEVICE_TYPE 2, $", "DEVICE_REVISION"),
    (
        "MANUFACTURER 1, DEVICE_TYPE 2, DEVICE_REVISION 3, $",
        "DD_REVISION",
    ),
];

/// Which completion of a place a word is, counted from 0.
fn rank(front: &str, place: &str, wanted: &str) -> Option<usize> {
    let (before, behind) = place.split_once('$').expect("a mark");
    let document = Document::new([front, before, behind].concat());
    let found = document.completions(front.len().saturating_add(before.len()));
    let mut labels = found.entries.iter().map(|entry| entry.label);
    labels.position(|label| label == wanted)
}

#[test]
fn the_word_that_is_wanted_is_among_the_first_three() {
    let front = [HEADER, ITEMS].concat();
    let later: Vec<_> = PLACES
        .iter()
        .map(|(place, wanted)| (*place, *wanted, rank(&front, place, wanted)))
        .filter(|(_, _, rank)| rank.is_none_or(|rank| rank >= 3))
        .collect();
    let first = PLACES.len().saturating_sub(later.len());
    println!("{first} of {} places", PLACES.len());
    assert!(later.len() <= 5, "{later:#?}");
    assert!(
        later.iter().all(|(_, _, rank)| rank.is_some()),
        "{later:#?}"
    );
}

#[test]
fn each_word_of_the_language_comes_with_a_sentence() {
    let front = [HEADER, ITEMS].concat();
    let all = PLACES.iter().map(|(place, _)| (front.as_str(), *place));
    for (front, place) in all.chain(BEFORE_ITEMS.map(|(place, _)| ("", place))) {
        let (before, behind) = place.split_once('$').expect("a mark");
        let document = Document::new([front, before, behind].concat());
        let found = document.completions(front.len().saturating_add(before.len()));
        for entry in found.entries {
            let is_word = match entry.kind {
                CompletionKind::Attribute | CompletionKind::Keyword | CompletionKind::Builtin => {
                    true
                }
                CompletionKind::Value => {
                    entry.label.starts_with(|it: char| it.is_ascii_uppercase())
                }
                CompletionKind::Item(_) | CompletionKind::Member | CompletionKind::Local => false,
            };
            let told = entry.documentation;
            assert_eq!(
                is_word,
                told.ends_with(['.', ';']),
                "{}: {told}",
                entry.label
            );
        }
    }
}

#[test]
fn a_header_begins_with_its_next_word() {
    for (place, wanted) in BEFORE_ITEMS {
        assert_eq!(rank("", place, wanted), Some(0), "{place}");
    }
}
