//! The codes of languages.

/// The second letters of the codes of languages with each first letter, as ISO 639-1 has them.
const SECOND_LETTERS: [&str; 26] = [
    "abefkmnrsvyz",
    "aeghimnors",
    "aehorsuvy",
    "aevz",
    "elnostu",
    "afijory",
    "adlnuv",
    "aeiortuyz",
    "adegikostu",
    "av",
    "agijklmnorsuvwy",
    "abginotuv",
    "ghiklnrsty",
    "abdeglnorvy",
    "cjmrs",
    "ailst",
    "u",
    "mnouw",
    "acdegiklmnoqrstuvw",
    "aeghiklnorstwy",
    "gkrz",
    "eio",
    "ao",
    "h",
    "io",
    "ahu",
];

/// A code as text.
pub(crate) fn code_text(code: &[u8]) -> &str {
    str::from_utf8(code).unwrap_or("en")
}

/// Whether a code is one of three digits.
pub(crate) fn is_number(code: &[u8]) -> bool {
    matches!(code, [b'0'..=b'9', ..])
}

/// The language of a code: that of its country is left out.
pub(crate) fn language_of(code: &[u8]) -> &[u8] {
    if is_number(code) {
        return code;
    }
    code.get(..2).unwrap_or(code)
}

/// Whether a code is one of a language, or a number.
pub(crate) fn is_language(code: &[u8]) -> bool {
    let [first @ b'a'..=b'z', second, ..] = code else {
        return is_number(code);
    };
    let letters = SECOND_LETTERS.get(usize::from(first.saturating_sub(b'a')));
    letters.is_some_and(|letters| letters.as_bytes().contains(second))
}
