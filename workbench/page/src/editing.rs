//! What the editor of the page asks about a text. Places count bytes.
use crate::{Stop, json};
use edd_ide::Document;
use edd_lexer::fault::LexFault;
use std::alloc::Global;
use std::vec::Vec;

/// A word that may stand at a place.
#[derive(serde::Serialize)]
struct Entry<'a> {
    label: &'a str,
    detail: &'a str,
}

/// The words that may stand at a place, for the bytes from `start` up to `end`.
#[derive(serde::Serialize)]
struct Offered<'a> {
    start: usize,
    end: usize,
    entries: &'a [Entry<'a>],
}

/// What is told of a place.
#[derive(serde::Serialize)]
struct Told<'a> {
    start: usize,
    end: usize,
    markdown: &'a str,
}

/// The text in the layout of the project.
pub fn layout(text: &[u8]) -> Result<Vec<u8>, Stop> {
    edd_fmt::format(text)
        .map(Vec::from_real)
        .map_err(|fault| Stop::of(&fault, matches!(fault, LexFault::Memory)))
}

/// What is known of a text. The page sends UTF-8; of other bytes nothing is known.
fn document(text: &[u8]) -> Document {
    Document::new(str::from_utf8(text).unwrap_or_default())
}

/// The words that may stand at a byte.
pub fn offered(text: &[u8], byte: usize) -> Result<Vec<u8>, Stop> {
    let document = document(text);
    let found = document.completions(byte);
    let mut entries = Vec::with_capacity(Global, found.entries.len())?;
    for entry in &found.entries {
        entries.push(Entry {
            label: entry.label,
            detail: entry.detail.as_str(),
        })?;
    }
    json(&Offered {
        start: found.replaced.start,
        end: found.replaced.end,
        entries: entries.as_slice(),
    })
}

/// What is told of the word at a byte, or `null`.
pub fn told(text: &[u8], byte: usize) -> Result<Vec<u8>, Stop> {
    let found = document(text).hover(byte);
    json(&found.as_ref().map(|it| Told {
        start: it.span.start,
        end: it.span.end,
        markdown: it.markdown.as_str(),
    }))
}
