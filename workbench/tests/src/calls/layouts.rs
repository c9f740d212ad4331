//! Formats texts.
//!
//! - `layouts`: the layout of a text, or its lexical error. The layout of a layout is itself.

use super::bytes_of;
use crate::playing::NoAnswer;
use edd_fmt::format;

/// Returns a layout without its last line feed, or says that it has none.
fn lines(layout: &[u8]) -> String {
    let text = String::from_utf8_lossy(layout);
    match text.strip_suffix('\n') {
        Some(lines) => lines.to_owned(),
        None if text.is_empty() => String::new(),
        None => format!("{text} (without an end)"),
    }
}

pub fn layout(text: &str) -> Result<String, NoAnswer> {
    let first = match format(&bytes_of(text)?) {
        Ok(first) => first,
        Err(fault) => return Ok(fault.to_string()),
    };
    Ok(match format(&first) {
        Ok(second) if second == first => lines(&first),
        _ => "it has another layout".to_owned(),
    })
}
