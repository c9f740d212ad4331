//! Where a quote is missing before a fault that comes of it.

use super::TextHelp;
use super::characters::{CharacterHelp, CharacterLooks};
use edd_source::Span;
use edd_source::pieces::{Shape, byte_at, pieces_of};

/// A quote that may be missing, and the string that shows it.
#[derive(Clone, Copy)]
pub(super) struct MissingQuote {
    pub(super) string: Span,
    pub(super) help: TextHelp,
}

// Whether a byte goes on with a text right after the quote that is to close it.
fn goes_on(byte: u8) -> bool {
    byte.is_ascii_alphanumeric()
        || matches!(byte, b'_' | b'%' | b'|' | b'#' | b'\'')
        || 0x80 <= byte
}

// Whether what stands at a place goes on so: no character that looks like a sign or a space.
fn goes_on_at(text: &[u8], place: usize) -> bool {
    let behind = text.get(place..).unwrap_or_default();
    let character = behind
        .utf8_chunks()
        .next()
        .and_then(|chunk| chunk.valid().chars().next());
    match character.filter(|character| !character.is_ascii()) {
        Some(character) => {
            let looks = CharacterHelp::of(character).looks;
            character.is_alphabetic() || looks == CharacterLooks::Other
        }
        None => goes_on(byte_at(text, place)),
    }
}

// Whether a byte may stand after a text.
fn may_follow(byte: u8) -> bool {
    matches!(
        byte,
        0 | b' '
            | b'\t'
            | b'\r'
            | b'\n'
            | b';'
            | b','
            | b')'
            | b'}'
            | b']'
            | b'"'
            | b'/'
            | b'+'
            | b'&'
            | b'('
    )
}

// Whether the bytes in a string are what stands after a text, so that its quote closes one.
fn closes(text: &[u8], string: Span) -> bool {
    let inside = Span {
        start: string.start.saturating_add(1),
        end: string.end.saturating_sub(1),
    };
    let words = inside.read(text);
    let behind = words.trim_start();
    let is_blank = behind.is_empty() && !words.is_empty();
    is_blank || behind.starts_with([';', ',', ')', '}'])
}

// Whether the bytes in a string end as what stands before a text, so that its quote opens one.
fn ends_as_code(text: &[u8], string: Span) -> bool {
    let inside = Span {
        end: string.end.saturating_sub(1),
        ..string
    };
    let words = inside.read(text);
    words.ends_with(' ') && words.trim_end().ends_with([',', ';', ':', '{'])
}

// Whether the first line of a string ends as a line of code.
fn is_code(words: &str) -> bool {
    words
        .split_once('\n')
        .is_some_and(|(first, _)| first.trim_end().ends_with([';', '}', '{']))
}

// Whether a string looks as if it went up to the quote of another one.
fn is_too_long(text: &[u8], string: Span) -> bool {
    let next = byte_at(text, string.end);
    let words = string.read(text);
    if words.contains('\n') {
        !may_follow(next) || is_code(words)
    } else {
        goes_on_at(text, string.end)
    }
}

// Whether the quote that ends a string stands inside of a text: a word follows it, and then a quote on
// the same line that closes a text.
fn is_inside(text: &[u8], string: Span) -> bool {
    let behind = text.get(string.end..).unwrap_or_default();
    let is_of_text = |byte: &u8| goes_on(*byte) || *byte == b' ';
    let count = behind.iter().take_while(|byte| is_of_text(byte)).count();
    let follows = byte_at(behind, count.saturating_add(1));
    goes_on(byte_at(behind, 0))
        && !string.read(text).contains('\n')
        && byte_at(behind, count) == b'"'
        && matches!(follows, b';' | b',' | b')' | b'}')
}

// The strings that begin before a place.
fn strings_before(text: &[u8], place: usize) -> impl Iterator<Item = Span> {
    pieces_of(text)
        .take_while(move |piece| piece.span.start < place)
        .filter(|piece| piece.shape == Shape::String)
        .map(|piece| piece.span)
}

/// The first string before a place that goes up to the quote of another one.
pub(super) fn missing_quote(text: &[u8], before: usize) -> Option<MissingQuote> {
    let string = strings_before(text, before).find(|string| is_too_long(text, *string))?;
    if is_inside(text, string) && !closes(text, string) && !ends_as_code(text, string) {
        let end = string.end;
        return Some(MissingQuote {
            string: Span {
                start: end.saturating_sub(1),
                end,
            },
            help: TextHelp::QuoteInText,
        });
    }
    let help = if closes(text, string) {
        TextHelp::QuoteAtBeginning
    } else {
        TextHelp::QuoteAtEnd
    };
    Some(MissingQuote { string, help })
}

/// Whether a quote comes after a place on its line that closes a text, as where the one before the
/// place is missing.
pub(super) fn is_before_quote(text: &[u8], place: usize) -> bool {
    let behind = text.get(place..).unwrap_or_default();
    let line = behind.split(|byte| *byte == b'\n').next();
    let quotes = line.unwrap_or_default().iter().enumerate();
    let mut quotes = quotes.filter(|(_, byte)| **byte == b'"');
    let Some((first, _)) = quotes.next() else {
        return false;
    };
    let follows = byte_at(behind, first.saturating_add(1));
    quotes.count() % 2 == 0 && matches!(follows, b';' | b',' | b')' | b'}' | b' ')
}

/// The first string that goes over the end of its line and begins before a place: any such, or one
/// right after which a word goes on.
pub(crate) fn long_string(text: &[u8], before: usize, any: bool) -> Option<Span> {
    strings_before(text, before).find(|string| {
        let next = byte_at(text, string.end);
        let goes_on = next.is_ascii_alphanumeric() || next == b'_';
        string.read(text).contains('\n') && (any || goes_on)
    })
}
