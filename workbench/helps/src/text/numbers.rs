//! Words that begin with a digit and are no numbers.

use super::TextHelp;

/// What helps where a word that begins with a digit is no number.
pub(super) fn help_of_number(word: &str, before: u8) -> TextHelp {
    let is_based = word.starts_with("0x") || word.starts_with("0X");
    if before == b',' && word.len() == 3 && is_of(word, "0123456789") {
        TextHelp::DigitsWithoutSign
    } else if before == b'%' {
        TextHelp::FormatIsText
    } else if word.starts_with("0b") || word.starts_with("0B") {
        TextHelp::NumberIsDecimal
    } else if word.contains("..") {
        TextHelp::NumberIsOne
    } else if is_based && !is_of(word, "0123456789abcdefABCDEFxX") {
        TextHelp::HexDigits
    } else if is_based {
        TextHelp::NumberIsTooLarge
    } else if is_member(word) {
        TextHelp::MemberIsNamed
    } else if word.contains('.') {
        TextHelp::NumberIsWhole
    } else {
        help_of_letters(word)
    }
}

// What helps where a word has letters behind its first digit.
fn help_of_letters(word: &str) -> TextHelp {
    let letters = word.trim_start_matches(|letter: char| letter.is_ascii_digit());
    let is_alphabetic = letters.bytes().all(|byte| byte.is_ascii_alphabetic());
    if is_of(word, "0123456789uUlL") && !is_of(word, "0123456789") {
        TextHelp::NoLettersBehind
    } else if is_of(word, "0123456789_") && word.contains('_') {
        TextHelp::DigitsWithoutUnderscore
    } else if is_of(word, "0123456789abcdefABCDEFhH") && word.ends_with(['h', 'H']) {
        TextHelp::HexIsWritten
    } else if (1..3).contains(&letters.len()) && is_alphabetic {
        TextHelp::NumberOrName
    } else if word.bytes().any(|byte| byte.is_ascii_alphabetic()) {
        TextHelp::NameBegins
    } else if 1 < word.len() && word.starts_with('0') {
        TextHelp::NumberHasNoZero
    } else {
        TextHelp::NumberIsTooLarge
    }
}

// Whether a word is a name with a number behind a `.`.
fn is_member(word: &str) -> bool {
    let begins = |part: &str, is: fn(&char) -> bool| part.chars().next().is_some_and(|it| is(&it));
    word.split_once('.').is_some_and(|(name, member)| {
        begins(name, char::is_ascii_alphabetic) && begins(member, char::is_ascii_digit)
    })
}

// Whether all letters of a word are among some.
fn is_of(word: &str, allowed: &str) -> bool {
    word.chars().all(|letter| allowed.contains(letter))
}
