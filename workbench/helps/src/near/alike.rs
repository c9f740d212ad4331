//! Names that are no slip of typing, but are made of the same words.

use super::parts::parts_of;

/// A part as short as this one says nothing of what is named.
const SHORT: usize = 3;

/// Parts that say which one of several is named, and nothing of what.
const KINDS: [&str; 14] = [
    "low", "high", "lower", "upper", "min", "max", "first", "last", "left", "right", "value",
    "code", "status", "number",
];

/// How many are named at most; more say nothing.
const MOST: usize = 3;

/// The names that have a word of a name, or nearly, where these are few.
pub(crate) fn names_alike<'a>(name: &str, names: impl Iterator<Item = &'a str>) -> Vec<&'a str> {
    let words: Vec<String> = parts_of(name)
        .into_iter()
        .map(str::to_ascii_lowercase)
        .filter(|part| SHORT < part.len() && !KINDS.contains(&part.as_str()))
        .collect();
    if words.is_empty() {
        return Vec::new();
    }
    let mut found: Vec<&str> = names
        .filter(|other| *other != name && has_word(other, &words))
        .take(MOST.saturating_add(1))
        .collect();
    if MOST < found.len() {
        found.clear();
    }
    found
}

// Whether a name has one of these words, or its plural.
fn has_word(name: &str, words: &[String]) -> bool {
    parts_of(name).into_iter().any(|part| {
        let part = part.to_ascii_lowercase();
        words.iter().any(|word| is_alike(&part, word))
    })
}

fn is_alike(one: &str, other: &str) -> bool {
    one == other || one.strip_suffix('s') == Some(other) || other.strip_suffix('s') == Some(one)
}
