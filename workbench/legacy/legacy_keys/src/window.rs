//! Which lines are seen.
use std::prelude::v1::*;

/// The lines that are seen, from the first on, and the one that is selected, if one is.
#[derive(Clone, Copy)]
pub struct Window {
    pub first: usize,
    pub height: usize,
    pub selected: Option<usize>,
}

/// The first line of a window of this height that holds the line, at or beside the one that is
/// given.
pub fn first_around(first: usize, line: usize, height: usize) -> usize {
    if line < first {
        return line;
    }
    if line - first < height {
        return first;
    }
    line - (height - 1)
}

/// The height of a window over so many lines, in a terminal of so many rows, above lines that are
/// told and one that asks; none where they leave no room, since too much is told.
pub fn height_beside(rows: usize, lines: usize, told: usize) -> Option<usize> {
    let left = rows.saturating_sub(1).saturating_sub(told);
    if left > 0 && (lines <= left || told <= rows / 2) {
        Some(left)
    } else {
        None
    }
}
