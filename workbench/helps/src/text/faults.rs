//! What is said of a text that has no tokens.

use super::TextHelp;
use super::characters::CharacterHelp;
use super::numbers::help_of_number;
use super::places::{has_end, place_of};
use super::quotes::{is_before_quote, long_string, missing_quote};
use crate::{Advice, Explained, Finding};
use edd_lexer::fault::LexFault;
use edd_source::Span;
use edd_source::pieces::{byte_at, line_length, pieces_of};

/// The most bytes of a name.
const LONGEST_NAME: usize = 255;

/// The words of a preprocessor.
const DIRECTIVES: [&str; 13] = [
    "include", "define", "undef", "if", "else", "elif", "endif", "pragma", "line", "error",
    "warning", "import", "!",
];

/// What is said of a text that has no tokens.
pub(crate) fn explain(text: &[u8], fault: &LexFault) -> Explained {
    let place = place_of(text, fault);
    let mut finding = Finding::at(place.span);
    say_fault(text, fault, &mut finding);
    Explained {
        finding,
        resumes_at: place.resumes_at,
    }
}

// Says what helps at a fault, or the quote that is missing before it.
fn say_fault(text: &[u8], fault: &LexFault, finding: &mut Finding) {
    let place = finding.span;
    let is_open = matches!(fault, LexFault::OpenString { .. });
    let quote = place
        .filter(|_| may_miss_quote(fault))
        .and_then(|place| missing_quote(text, place.start));
    if (is_open || quote.is_none())
        && let Some(advice) = help_at(text, fault, place)
    {
        finding.say(advice);
    }
    match (quote, place) {
        (Some(quote), _) => finding.say_at(Some(quote.string), quote.help),
        (None, Some(place)) if is_open => {
            if let Some(string) = long_string(text, place.start, true) {
                finding.say_at(Some(string), TextHelp::LongString);
            }
        }
        (None, Some(place)) if is_outside(fault) && is_before_quote(text, place.end) => {
            finding.say(TextHelp::QuoteBefore);
        }
        _ => {}
    }
}

// Whether a fault may come of a quote that is missing before it.
fn may_miss_quote(fault: &LexFault) -> bool {
    let has_place = matches!(
        fault,
        LexFault::OpenString { .. } | LexFault::Directive { .. }
    );
    has_place || has_end(fault)
}

// Whether a fault is that of a word or a sign outside of strings.
fn is_outside(fault: &LexFault) -> bool {
    matches!(
        fault,
        LexFault::BadCharacter { .. } | LexFault::BadNumber { .. }
    )
}

// What helps at a fault, by the byte before its place and the one after it.
fn help_at(text: &[u8], fault: &LexFault, place: Option<Span>) -> Option<Advice> {
    let word = place.map_or("", |place| place.read(text));
    let byte = |place: Option<usize>| place.map_or(0, |place| byte_at(text, place));
    let before = byte(place.map(|place| place.start.saturating_sub(1)));
    let after = byte(place.map(|place| place.start.saturating_add(1)));
    if let Some(character) = named_character(fault, word) {
        return Some(CharacterHelp::of(character).into());
    }
    if is_remark(text, fault, place) {
        return Some(TextHelp::CommentIsWritten.into());
    }
    let place = place.map_or(0, |place| place.start);
    if matches!(fault, LexFault::BadNumber { .. }) && word.contains("..") && is_in_for(text, place)
    {
        return Some(TextHelp::ForIsWritten.into());
    }
    help_of(fault, word, before, after).map(Advice::from)
}

// Whether a `for` stands before a place on its line.
fn is_in_for(text: &[u8], place: usize) -> bool {
    let before = text.get(..place).unwrap_or_default();
    let line = before.rsplit(|byte| *byte == b'\n').next();
    let line = line.unwrap_or_default();
    pieces_of(line).any(|piece| piece.span.read(line).eq_ignore_ascii_case("for"))
}

// The character past ASCII that no token has.
fn named_character(fault: &LexFault, word: &str) -> Option<char> {
    let character = word.chars().next()?;
    let is_named = !character.is_ascii() || character.is_ascii_control();
    (is_named && matches!(fault, LexFault::BadCharacter { .. })).then_some(character)
}

// Whether a `#` begins no line of a preprocessor but a remark, as in other languages.
fn is_remark(text: &[u8], fault: &LexFault, place: Option<Span>) -> bool {
    let (LexFault::Directive { .. }, Some(place)) = (fault, place) else {
        return false;
    };
    let line = text.get(place.start..).unwrap_or_default();
    let words = Span {
        start: place.start.saturating_add(1),
        end: place.start.saturating_add(line_length(line)),
    };
    let words = words.read(text).trim_start();
    !words.is_empty() && !DIRECTIVES.iter().any(|word| words.starts_with(word))
}

fn help_of(fault: &LexFault, word: &str, before: u8, after: u8) -> Option<TextHelp> {
    let help = match fault {
        LexFault::BadCharacter { .. } if LONGEST_NAME < word.len() => TextHelp::NameIsTooLong,
        LexFault::TooLong => TextHelp::TextIsTooLong,
        LexFault::NotUtf8 { .. } => TextHelp::SaveAsUtf8,
        LexFault::BadCharacter { .. } => help_of_sign(word, before, after),
        LexFault::OpenComment { .. } => TextHelp::CommentIsOpen,
        LexFault::OpenString { .. } => TextHelp::StringIsOpen,
        LexFault::BadEscape { .. } => TextHelp::Escapes,
        LexFault::BadNumber { .. } => help_of_number(word, before),
        LexFault::Directive { .. } => TextHelp::RunPreprocessor,
        LexFault::Memory => return None,
    };
    Some(help)
}

// What helps at a character of ASCII that no token has.
fn help_of_sign(word: &str, before: u8, after: u8) -> TextHelp {
    if word.starts_with('\'') && before.is_ascii_digit() {
        TextHelp::DigitsWithoutSign
    } else if word.starts_with(['\'', '`']) {
        TextHelp::CharacterIsNumber
    } else if word.starts_with('#') && after.is_ascii_digit() {
        TextHelp::NoSignBefore
    } else if word.starts_with('#') {
        TextHelp::CommentIsWritten
    } else {
        TextHelp::NoToken
    }
}
