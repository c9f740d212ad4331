//! What is shown of a source.

use crate::Diagnostic;

/// The most that is shown of a source.
pub const MOST: usize = 100;

/// What is shown of a source.
#[derive(Clone, Debug, Default, PartialEq, Eq)]
pub struct Report {
    /// Whether the source is refused.
    pub is_refused: bool,
    /// Whether a lint that is denied finds something.
    pub is_denied: bool,
    /// What is shown, in order.
    pub shown: Vec<Diagnostic>,
    /// How much more there is.
    pub more: usize,
}

impl Report {
    /// How many more can be shown.
    pub fn room(&self) -> usize {
        MOST.saturating_sub(self.shown.len())
    }

    /// Shows one more.
    pub fn show(&mut self, diagnostic: Diagnostic) {
        self.shown.push(diagnostic);
    }

    /// Counts some that are not shown.
    pub fn pass(&mut self, count: usize) {
        self.more = self.more.saturating_add(count);
    }

    /// Whether the source is refused, or a lint that is denied finds something.
    pub fn fails(&self) -> bool {
        self.is_refused || self.is_denied
    }
}
