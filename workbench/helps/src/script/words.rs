//! The words of a line.

use edd_source::Span;

/// A word of a line, and the byte of the line where it begins.
#[derive(Clone, Copy)]
pub(super) struct Word<'a> {
    pub(super) text: &'a str,
    pub(super) start: usize,
}

impl Word<'_> {
    pub(super) fn span(self) -> Span {
        Span {
            start: self.start,
            end: self.start.saturating_add(self.text.len()),
        }
    }
}

/// The words of a line, and at its end one of no width.
pub(super) fn words_of(line: &str) -> Vec<Word<'_>> {
    let mut words = Vec::new();
    let mut start: usize = 0;
    for text in line.split(' ') {
        if !text.is_empty() {
            words.push(Word { text, start });
        }
        start = start.saturating_add(text.len()).saturating_add(1);
    }
    words.push(Word {
        text: "",
        start: line.trim_end_matches(' ').len(),
    });
    words
}

/// The word of a number, or the one at the end.
pub(super) fn word_at<'a>(words: &[Word<'a>], place: usize) -> Word<'a> {
    let end = Word { text: "", start: 0 };
    words.get(place).or(words.last()).copied().unwrap_or(end)
}
