//! What holds of each layout, whatever the text is.

#![allow(clippy::expect_used, clippy::panic, reason = "a test fails by a panic")]

mod inputs;

use edd_fmt::{draft, find_edits, format, unified_diff};
use inputs::try_texts;

/// The comments and marks of a text, with line ends alone where the text has CR LF.
fn comments(text: &str) -> Vec<String> {
    let mut found = Vec::new();
    let mut rest = text;
    while let Some(first) = rest.chars().next() {
        let length = match rest.as_bytes() {
            [b'"', inside @ ..] => {
                let end = inside.iter().position(|byte| *byte == b'"');
                end.map_or(rest.len(), |end| end.saturating_add(2))
            }
            [b'/', b'*', ..] => rest
                .find("*/")
                .map_or(rest.len(), |end| end.saturating_add(2)),
            [b'/', b'/', ..] | [b'#', ..] => rest.find('\n').unwrap_or(rest.len()),
            _ => first.len_utf8(),
        };
        let (piece, behind) = rest.split_at(length);
        if piece.starts_with("/*") || piece.starts_with("//") || piece.starts_with('#') {
            let lines = piece.split('\n').map(|line| line.trim_end_matches('\r'));
            found.push(lines.collect::<Vec<_>>().join("\n"));
        }
        rest = behind;
    }
    found
}

#[test]
fn the_core_takes_each_draft() {
    try_texts(|text| assert_eq!(draft(text.as_bytes()), format(text.as_bytes())));
}

#[test]
fn formatted_twice_is_formatted_once() {
    try_texts(|text| {
        if let Ok(once) = format(text.as_bytes()) {
            assert_eq!(format(&once), Ok(once));
        }
    });
}

#[test]
fn comments_keep_their_blanks() {
    try_texts(|text| {
        if let Ok(formatted) = format(text.as_bytes()) {
            let formatted = String::from_utf8(formatted).expect("text");
            assert_eq!(comments(&formatted), comments(text));
        }
    });
}

#[test]
fn edits_give_the_layout() {
    try_texts(|text| {
        let Ok(edits) = find_edits(text) else { return };
        let mut edited = text.to_owned();
        for edit in edits.iter().rev() {
            edited.replace_range(edit.span.range(), &edit.text);
        }
        assert_eq!(Ok(edited.into_bytes()), format(text.as_bytes()));
    });
}

#[test]
fn most_texts_have_a_layout() {
    let counts = std::cell::Cell::new((0_u32, 0_u32));
    try_texts(|text| {
        let (all, formatted) = counts.get();
        let is_formatted = format(text.as_bytes()).is_ok_and(|layout| layout != text.as_bytes());
        counts.set((
            all.saturating_add(1),
            formatted.saturating_add(u32::from(is_formatted)),
        ));
    });
    let (all, formatted) = counts.get();
    assert!(formatted > all / 2, "{formatted} of {all}");
}

#[test]
fn a_layout_that_would_be_too_long_stays() {
    let deep = "{".repeat(3_000);
    assert_eq!(format(deep.as_bytes()), Ok(deep.into_bytes()));
}

#[test]
fn many_brackets_take_linear_time() {
    let text = format!(
        "METHOD m {{ DEFINITION {{ {}; }} }}",
        "if (a) ".repeat(100_000)
    );
    assert_eq!(format(text.as_bytes()), Ok(text.into_bytes()));
}

/// Applies a unified diff of a text, as `patch` does.
fn apply(diff: &str, text: &str) -> String {
    let lines: Vec<_> = text.split_inclusive('\n').collect();
    let (mut patched, mut at) = (String::new(), 0_usize);
    let mut diff_lines = diff.split_inclusive('\n').skip(2).peekable();
    while let Some(line) = diff_lines.next() {
        let (sign, behind) = line.split_at(1);
        let is_without_end = diff_lines.peek().is_some_and(|next| next.starts_with('\\'));
        let content = if is_without_end {
            behind.trim_end_matches('\n')
        } else {
            behind
        };
        match sign {
            "@" => {
                let start = behind
                    .split(['-', ',', ' '])
                    .find_map(|word| word.parse::<usize>().ok());
                let range = behind.split(' ').nth(1).expect("the old range");
                let start = start.expect("a number");
                let before = if range.ends_with(",0") {
                    start
                } else {
                    start.saturating_sub(1)
                };
                patched.extend(
                    lines
                        .get(at..before)
                        .expect("lines before a hunk")
                        .iter()
                        .copied(),
                );
                at = before;
            }
            " " | "-" => {
                assert_eq!(lines.get(at), Some(&content));
                at = at.saturating_add(1);
                patched.push_str(if sign == " " { content } else { "" });
            }
            "+" => patched.push_str(content),
            _ => {}
        }
    }
    patched.extend(lines.get(at..).expect("lines behind").iter().copied());
    patched
}

#[test]
fn a_unified_diff_gives_the_layout() {
    try_texts(|text| {
        let Ok(formatted) = format(text.as_bytes()) else {
            return;
        };
        let formatted = String::from_utf8(formatted).expect("text");
        assert_eq!(apply(&unified_diff("s", text, &formatted), text), formatted);
    });
}

#[test]
fn many_changes_are_compared_in_linear_time() {
    let text = "VARIABLE v {\n  TYPE INTEGER;\n}\n".repeat(25_000);
    let formatted = String::from_utf8(format(text.as_bytes()).expect("a layout")).expect("text");
    let diff = unified_diff("s", &text, &formatted);
    assert_eq!(
        diff.lines().filter(|line| line.starts_with('+')).count(),
        25_001
    );
}
