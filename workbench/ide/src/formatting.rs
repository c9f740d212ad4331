//! The text in its layout.

use crate::Document;
use edd_source::{Edit, Span};

impl Document {
    /// The edits that give the text its layout, in their order and each between two tokens; none where
    /// it has its layout already, or has no tokens.
    ///
    /// ```
    /// use edd_ide::Document;
    ///
    /// let edits = Document::new("HELP [help] ;\n").format_edits();
    /// let [edit] = edits.as_slice() else { panic!("{edits:?}") };
    /// assert_eq!((edit.span.range(), edit.text.as_str()), (11..12, ""));
    /// ```
    pub fn format_edits(&self) -> Vec<Edit> {
        if !self.is_description() {
            return Vec::new();
        }
        edd_fmt::find_edits(self.text()).unwrap_or_default()
    }

    /// The edits of those that lie in a part of the text.
    pub fn format_edits_in(&self, asked: Span) -> Vec<Edit> {
        let mut edits = self.format_edits();
        edits.retain(|edit| asked.start <= edit.span.start && edit.span.end <= asked.end);
        edits
    }
}
