//! Where items begin after a fault.
//!
//! An item begins at its word in column 1, wherever the braces seem to be, or after the `}` of the
//! item before. After a fault the braces may be off: those that are still open where an item begins
//! miss their closing ones, and as many closing ones that come later are taken for these.

use edd_source::Span;
use edd_source::pieces::{Piece, Shape, byte_at, pieces_of};
use edd_source::tokens::kind_word;
use edd_syntax::numbers::KINDS;

/// An item, with what comes after it up to the next one.
#[derive(Clone, Copy)]
pub(super) struct Section {
    pub(super) span: Span,
    /// The line of its first byte, counted from 1.
    pub(super) line: u32,
    /// Whether its braces are still open where the next item begins.
    pub(super) is_open: bool,
}

/// A scan for items.
struct Scan<'a> {
    text: &'a [u8],
    /// Where the fault is. Items before it are none of those that are found.
    from: usize,
    /// How many braces are open.
    depth: usize,
    /// How many braces were open where items began.
    missed: usize,
    /// Whether an item in column 1 may begin though braces are open.
    may_be_off: bool,
    /// The piece before, with no gaps and comments between.
    before: &'a str,
    line: u32,
    found: Vec<Section>,
    /// Whether the last section has no end so far.
    is_inside: bool,
}

/// The items that begin at a place or after it. Where a word that is left out is refused there, its
/// braces are passed as they are.
pub(super) fn sections(text: &[u8], from: usize, is_left_out: bool) -> Vec<Section> {
    let mut scan = Scan {
        text,
        from,
        depth: 0,
        missed: 0,
        may_be_off: !is_left_out,
        before: "",
        line: 1,
        found: Vec::new(),
        is_inside: false,
    };
    let is_open = |piece: &Piece| matches!(piece.shape, Shape::OpenComment | Shape::OpenString);
    for piece in pieces_of(text).take_while(|piece| !is_open(piece)) {
        scan.take(piece);
    }
    scan.found
}

/// Whether a word begins an item.
pub(crate) fn is_item_word(word: &str) -> bool {
    KINDS.iter().any(|kind| kind_word(*kind) == word)
}

// Whether a word in column 1 begins an item that this profile leaves out.
fn is_left_out_word(word: &str) -> bool {
    matches!(
        word,
        "AXIS"
            | "BLOCK"
            | "CHART"
            | "DOMAIN"
            | "FILE"
            | "GRAPH"
            | "GRID"
            | "IMAGE"
            | "IMPORT"
            | "LIST"
            | "PROGRAM"
            | "RECORD"
            | "REFRESH"
            | "SOURCE"
            | "STYLE"
            | "UNIT"
            | "VARIABLE_LIST"
            | "WAVEFORM"
            | "WRITE_AS_ONE"
    )
}

// Whether a byte is the first of its line.
fn is_first(text: &[u8], place: usize) -> bool {
    place == 0 || byte_at(text, place.saturating_sub(1)) == b'\n'
}

impl Scan<'_> {
    // Whether an item begins with a piece.
    fn begins(&self, piece: Piece) -> bool {
        let is_word = piece.shape == Shape::Word && self.before != "OF";
        let word = piece.span.read(self.text);
        let is_closed = self.depth == 0;
        let begins_line = is_first(self.text, piece.span.start);
        if is_word && is_left_out_word(word) {
            return is_closed && begins_line && self.from < piece.span.start;
        }
        if !is_word || !is_item_word(word) {
            return false;
        }
        if begins_line {
            is_closed || self.may_be_off
        } else {
            is_closed && self.before == "}"
        }
    }

    // Ends the last section before a place.
    fn end(&mut self, place: usize) {
        if !self.is_inside {
            return;
        }
        self.is_inside = false;
        let is_open = 0 < self.depth;
        if let Some(last) = self.found.last_mut() {
            last.span.end = place;
            last.is_open = is_open;
        }
    }

    // Begins a section at a place.
    fn begin(&mut self, place: usize) {
        self.end(place);
        self.missed = self.missed.saturating_add(self.depth);
        self.depth = 0;
        if place < self.from {
            return;
        }
        self.found.push(Section {
            span: Span {
                start: place,
                end: self.text.len(),
            },
            line: self.line,
            is_open: false,
        });
        self.is_inside = true;
    }

    // A closing brace where none is open closes one that was missed, and no item goes on after it.
    fn close(&mut self, place: usize) {
        if self.depth == 0 && 0 < self.missed {
            self.missed = self.missed.saturating_sub(1);
            self.end(place);
        }
        self.depth = self.depth.saturating_sub(1);
        self.may_be_off = self.may_be_off || self.depth == 0;
    }

    fn take_sign(&mut self, place: usize) {
        match byte_at(self.text, place) {
            b'{' => self.depth = self.depth.saturating_add(1),
            b'}' => self.close(place),
            _ => {}
        }
    }
}

impl<'a> Scan<'a> {
    fn take(&mut self, piece: Piece) {
        let text = self.text;
        let word: &'a str = piece.span.read(text);
        if self.begins(piece) {
            self.begin(piece.span.start);
            self.may_be_off = self.may_be_off && !is_left_out_word(word);
        }
        if !matches!(piece.shape, Shape::Gap | Shape::Comment) {
            self.before = word;
        }
        if piece.shape == Shape::Sign {
            self.take_sign(piece.span.start);
        }
        let lines = word.bytes().filter(|byte| *byte == b'\n').count();
        let lines = u32::try_from(lines).unwrap_or(u32::MAX);
        self.line = self.line.saturating_add(lines);
    }
}
