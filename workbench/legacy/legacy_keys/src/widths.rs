//! How many columns a text takes.
use std::prelude::v1::*;

use unicode_width::UnicodeWidthChar;

pub fn width_of(character: char) -> usize {
    character.width().unwrap_or(0)
}

pub fn columns_of(text: &str) -> usize {
    let mut columns = 0usize;
    for character in text.chars() {
        columns = columns.saturating_add(width_of(character));
    }
    columns
}
