//! The lines that a layout changes, as a unified diff.

use similar::udiff::UnifiedHunkHeader;
use similar::{DiffOp, group_diff_ops};
use std::fmt::Write;

/// How many lines around a change are shown.
const CONTEXT: usize = 3;

/// A line with its end, and which bytes of the text it has where blanks are not counted.
#[derive(Clone, Copy, Debug, PartialEq, Eq)]
struct Line<'a> {
    text: &'a str,
    start: usize,
    end: usize,
}

/// Returns the lines that differ between a source and its layout as a unified diff, which `patch`
/// applies to the file of this name. It is empty where none do.
///
/// Both texts have the same characters but for blanks, which says what belongs together, so this takes
/// linear time.
///
/// ```
/// let diff = edd_fmt::unified_diff("tank.edd", "HELP  [help];\n", "HELP [help];\n");
/// assert_eq!(
///     diff,
///     "--- tank.edd\n+++ tank.edd\n@@ -1 +1 @@\n-HELP  [help];\n+HELP [help];\n",
/// );
/// assert_eq!(edd_fmt::unified_diff("tank.edd", "HELP [help];\n", "HELP [help];\n"), "");
/// ```
pub fn unified_diff(name: &str, source: &str, formatted: &str) -> String {
    let (old, new) = (read_lines(source), read_lines(formatted));
    let mut diff = String::new();
    for hunk in group_diff_ops(find_changes(&old, &new), CONTEXT) {
        if diff.is_empty() {
            diff = format!("--- {name}\n+++ {name}\n");
        }
        // Writing into a text does not fail.
        let _ = writeln!(diff, "{}", UnifiedHunkHeader::new(&hunk));
        for change in hunk {
            let is_equal = matches!(change, DiffOp::Equal { .. });
            let removed = old.get(change.old_range()).unwrap_or_default();
            push_lines(&mut diff, if is_equal { ' ' } else { '-' }, removed);
            if !is_equal {
                push_lines(
                    &mut diff,
                    '+',
                    new.get(change.new_range()).unwrap_or_default(),
                );
            }
        }
    }
    diff
}

fn push_lines(diff: &mut String, sign: char, lines: &[Line<'_>]) {
    for line in lines {
        diff.push(sign);
        diff.push_str(line.text);
        if !line.text.ends_with('\n') {
            diff.push_str("\n\\ No newline at end of file\n");
        }
    }
}

fn read_lines(text: &str) -> Vec<Line<'_>> {
    let mut start = 0;
    let read_line = |text| {
        let end = count_characters(text).saturating_add(start);
        let line = Line { text, start, end };
        start = end;
        line
    };
    text.split_inclusive('\n').map(read_line).collect()
}

/// How many characters there are that a layout keeps. A byte order mark is none of them.
fn count_characters(text: &str) -> usize {
    let is_kept = |character: &char| !matches!(character, ' ' | '\t'..='\r' | '\u{feff}');
    text.chars().filter(is_kept).count()
}

/// Finds what is equal and what is replaced, from the first line to the last.
fn find_changes(old: &[Line<'_>], new: &[Line<'_>]) -> Vec<DiffOp> {
    let mut changes = Vec::new();
    let (mut old_index, mut new_index) = (0_usize, 0_usize);
    loop {
        let old = old.get(old_index..).unwrap_or_default();
        let new = new.get(new_index..).unwrap_or_default();
        if old.is_empty() && new.is_empty() {
            return changes;
        }
        let len = old
            .iter()
            .zip(new)
            .take_while(|(old, new)| old == new)
            .count();
        let (old_len, new_len) = match len {
            0 => count_changed(old, new),
            len => (len, len),
        };
        changes.push(match len {
            0 => DiffOp::Replace {
                old_index,
                old_len,
                new_index,
                new_len,
            },
            len => DiffOp::Equal {
                old_index,
                new_index,
                len,
            },
        });
        old_index = old_index.saturating_add(old_len);
        new_index = new_index.saturating_add(new_len);
    }
}

/// Counts the lines of both up to the next one that is the same.
fn count_changed(old: &[Line<'_>], new: &[Line<'_>]) -> (usize, usize) {
    let (mut old_len, mut new_len) = (0_usize, 0_usize);
    loop {
        let (old, new) = (old.get(old_len), new.get(new_len));
        if old == new {
            return (old_len, new_len);
        }
        // The line that ends first has no other one left to be compared with.
        let old_end = old.map_or(usize::MAX, |line| line.end);
        let new_end = new.map_or(usize::MAX, |line| line.end);
        old_len = old_len.saturating_add(usize::from(old_end <= new_end));
        new_len = new_len.saturating_add(usize::from(new_end <= old_end));
    }
}
