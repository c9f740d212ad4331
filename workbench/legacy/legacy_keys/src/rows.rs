//! Lines as the rows of a terminal.
use std::prelude::v1::*;

use crate::shown::Offer;
use crate::widths::{columns_of, width_of};
use edd_sinks::{ListSink, TextSink};
use std::alloc::{AllocError, Global};

/// Rows, and what each offers, if it offers something.
pub struct Rows {
    pub text: String,
    pub offers: Vec<Option<Offer>>,
}

// Rows that are made, and how many columns are left of the last one.
struct Folding {
    text: TextSink,
    offers: ListSink<Option<Offer>>,
    columns: usize,
    left: usize,
}

impl Folding {
    fn end_row(&mut self, offer: Option<Offer>) {
        self.text.push('\n');
        self.offers.push(offer);
        self.left = self.columns;
    }

    // A word that is longer than a row goes on in the next one.
    fn add_word(&mut self, word: &str) {
        for character in word.chars() {
            let width = width_of(character);
            if width > self.left {
                self.end_row(None);
            }
            self.text.push(character);
            self.left = self.left.saturating_sub(width);
        }
    }

    // The space before a word, or the end of the row where the word has no room there.
    fn add_space(&mut self, word: &str) {
        if self.left <= columns_of(word) {
            self.end_row(None);
            return;
        }
        self.text.push(' ');
        self.left = self.left.saturating_sub(1);
    }

    fn add_line(&mut self, line: &str) {
        let mut is_first = true;
        for word in line.split(' ') {
            if !is_first {
                self.add_space(word);
            }
            is_first = false;
            self.add_word(word);
        }
        self.end_row(None);
    }
}

/// Lines as rows of so many columns. One that offers something is one row, of which only what has
/// room is seen; any other is broken between words.
pub fn fold(
    alloc: Global,
    lines: &str,
    offers: &[Option<Offer>],
    columns: usize,
) -> Result<Rows, AllocError> {
    let mut folding = Folding {
        text: TextSink::new(alloc),
        offers: ListSink::new(alloc),
        columns,
        left: columns,
    };
    for (place, line) in lines.lines().enumerate() {
        match offers.get(place) {
            Some(Some(offer)) => {
                folding.text.push_str(line);
                folding.end_row(Some(*offer));
            }
            _ => folding.add_line(line),
        }
    }
    Ok(Rows {
        text: folding.text.finish()?,
        offers: folding.offers.finish()?,
    })
}
