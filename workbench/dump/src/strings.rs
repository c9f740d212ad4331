//! The strings of an image: variants by language, or a key of a dictionary.

use crate::core_format::quoted;
use edd_loader::variant_from;
use std::iter;

/// The longest excerpt in bytes. Code can refer to one long string millions of times.
const LONGEST_EXCERPT: usize = 60;

/// The text of a string in one language.
#[derive(Clone, Copy, Debug, PartialEq, Eq)]
pub struct Variant<'b> {
    /// The code of the language, such as `en`.
    pub code: &'b str,
    /// The text.
    pub text: &'b str,
}

/// The variants of a string, up to the first unreadable one. A key has none.
pub fn variants(string: &[u8]) -> impl Iterator<Item = Variant<'_>> {
    let mut rest = string.strip_prefix(&[0]).unwrap_or_default();
    iter::from_fn(move || {
        let piece = variant_from(rest)?;
        let code = str::from_utf8(piece.code).ok()?;
        let text = str::from_utf8(piece.text).ok()?;
        rest = piece.behind;
        Some(Variant { code, text })
    })
}

/// The key that a string is, if it is one.
fn key(string: &[u8]) -> Option<&str> {
    let key = string.strip_prefix(&[1])?;
    Some(str::from_utf8(key).unwrap_or_default())
}

/// The texts of a string with their languages, or the key in brackets.
///
/// ```
/// assert_eq!(edd_dump::string_text(b"\0\x02en\0\0\0\x01Y"), r#"en "Y""#);
/// assert_eq!(edd_dump::string_text(b"\x01flow"), "[flow]");
/// ```
pub fn string_text(string: &[u8]) -> String {
    if let Some(key) = key(string) {
        return format!("[{key}]");
    }
    let texts = variants(string).map(|it| format!("{} {}", it.code, quoted(it.text)));
    texts.collect::<Vec<_>>().join(" ")
}

/// The beginning of the English text, or else of the first one; or the key.
pub(crate) fn excerpt(string: &[u8]) -> Option<String> {
    if let Some(key) = key(string) {
        return Some(format!("[{key}]"));
    }
    let english = variants(string).find(|it| it.code == "en");
    let text = english.or_else(|| variants(string).next())?.text;
    if text.len() <= LONGEST_EXCERPT {
        return Some(quoted(text));
    }
    let beginning = (0..=LONGEST_EXCERPT)
        .rev()
        .find_map(|end| text.get(..end))?;
    Some(format!("{}..", quoted(beginning)))
}
