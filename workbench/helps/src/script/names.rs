//! Where a line of a script names variables.

use super::words::{Word, words_of};
use edd_source::Span;

/// The places at which a line of a script names variables, whether or not there are such.
///
/// ```
/// use edd_helps::script_names;
///
/// let line = "answer 0 flow=480 mode=1";
/// let names: Vec<_> = script_names(line).iter().map(|name| &line[name.range()]).collect();
/// assert_eq!(names, ["flow", "mode"]);
/// ```
pub fn script_names(line: &str) -> Vec<Span> {
    let words = words_of(line);
    let mut words = words.iter().filter(|word| !word.text.is_empty());
    match words.next().map(|first| first.text) {
        Some("set") => words.take(1).map(|name| name.span()).collect(),
        Some("answer") => words.skip(1).filter_map(name_in_setting).collect(),
        _ => Vec::new(),
    }
}

/// The name in `NAME=N`.
fn name_in_setting(word: &Word<'_>) -> Option<Span> {
    let (name, _) = word.text.split_once('=')?;
    let span = word.span();
    let end = span.start.saturating_add(name.len());
    (!name.is_empty()).then_some(Span { end, ..span })
}

/// The part of a variable's name before a byte of a line of a script, where one is being written.
///
/// ```
/// use edd_helps::script_name_before;
///
/// assert_eq!(script_name_before("answer 0 fl", 11).unwrap().range(), 9..11);
/// assert_eq!(script_name_before("answer 0 flow=4", 15), None);
/// ```
pub fn script_name_before(line: &str, byte: usize) -> Option<Span> {
    let before = line.get(..byte)?;
    let start = before.rfind(' ')?.saturating_add(1);
    let begun = before.get(start..)?;
    let words = words_of(before.get(..start)?);
    let words: Vec<&str> = words.iter().map(|word| word.text).collect();
    let is_named = match words.as_slice() {
        ["set", ""] => true,
        ["answer", _, .., ""] => !begun.contains('=') && words.len() > 2,
        _ => false,
    };
    is_named.then_some(Span { start, end: byte })
}
