//! A description that is typed line by line without indentation comes out as it is laid out.

#![allow(clippy::expect_used, clippy::panic, reason = "a test fails by a panic")]

use edd_ide::{Document, Edit, Fix, Typed};
use edd_source::Confidence;

const EXAMPLES: [&str; 4] = [
    include_str!("../../../examples/tank.edd"),
    include_str!("../../../examples/flow_transmitter.edd"),
    include_str!("../../../examples/temperature_scanner.edd"),
    include_str!("../../../examples/valve_positioner.edd"),
];

fn applied(text: String, edits: Vec<Edit>) -> String {
    let confidence = Confidence::Sure;
    let fix = Fix { edits, confidence };
    let made = fix.apply(text.as_bytes()).expect("edits in their order");
    String::from_utf8(made).expect("a text")
}

/// The text with one character more, and what is laid out behind that.
fn with_typed(text: String, character: char) -> String {
    let typed = character.to_string();
    let text = text + &typed;
    let Some(sign) = Typed::from_text(&typed) else {
        return text;
    };
    let edits = Document::new(text.as_str()).format_edits_typed(text.len(), sign);
    applied(text, edits)
}

/// The lines without the blanks before them, which are those of a comment where one goes on.
fn without_indentation(text: &str) -> String {
    let mut is_in_comment = false;
    let lines = text.split_inclusive('\n').map(|line| {
        let written = if is_in_comment {
            line
        } else {
            line.trim_start_matches(' ')
        };
        is_in_comment = match (line.rfind("/*"), line.rfind("*/")) {
            (Some(opens), closes) => closes < Some(opens),
            (None, closes) => is_in_comment && closes.is_none(),
        };
        written
    });
    lines.collect()
}

#[test]
fn what_is_typed_comes_out_laid_out() {
    for example in EXAMPLES {
        let typed = without_indentation(example);
        assert_ne!(typed, example);
        let made = typed.chars().fold(String::new(), with_typed);
        assert_eq!(made, example);
    }
}
