//! Edits that are proposed.

use crate::Span;

/// One change: the bytes of a span become a text.
#[derive(Clone, Debug, PartialEq, Eq)]
pub struct Edit {
    /// What is replaced; an empty span inserts.
    pub span: Span,
    /// What stands there then.
    pub text: String,
}

/// How sure it is that a fix gives what was meant.
#[derive(Clone, Copy, Debug, PartialEq, Eq, Hash)]
pub enum Confidence {
    /// It is what was meant, so a tool may apply it unasked.
    Sure,
    /// It may be what was meant: it is shown, and applied only when asked for.
    Guess,
}

/// A change of a source that mends what is wrong.
#[derive(Clone, Debug, PartialEq, Eq)]
pub struct Fix {
    /// The changes, in the order of the source and apart from each other.
    pub edits: Vec<Edit>,
    /// How sure it is.
    pub confidence: Confidence,
}

impl Fix {
    /// A fix of one change.
    ///
    /// ```
    /// use edd_source::{Confidence, Fix, Span};
    ///
    /// let fix = Fix::replace(Span { start: 4, end: 5 }, "=", Confidence::Guess);
    /// assert_eq!(fix.apply(b"if (a == b)").as_deref(), Some(b"if (= == b)".as_slice()));
    /// ```
    pub fn replace(span: Span, text: impl Into<String>, confidence: Confidence) -> Fix {
        let text = text.into();
        Fix {
            edits: vec![Edit { span, text }],
            confidence,
        }
    }

    /// A source with the changes; none where they leave it or overlap.
    pub fn apply(&self, source: &[u8]) -> Option<Vec<u8>> {
        let mut made = Vec::with_capacity(source.len());
        let mut place = 0;
        for Edit { span, text } in &self.edits {
            made.extend_from_slice(source.get(place..span.start)?);
            made.extend_from_slice(text.as_bytes());
            place = span.end;
        }
        made.extend_from_slice(source.get(place..)?);
        Some(made)
    }
}
