//! The texts of a description, each with what it is for.

use crate::source::{Source, TokenIndex};
use edd_lexer::token::TokenKind;
use edd_syntax::numbers::TextAttribute;
use edd_syntax::operators::RequestKind;
use edd_syntax::symbols::{Keyword, Symbol};
use std::borrow::Cow;

/// How much of a sentence is looked at where another string goes on with it.
const LONGEST_SENTENCE: usize = 256;

/// A text: strings that follow each other are one.
pub(crate) struct Spoken<'s> {
    /// Its first string.
    pub(crate) at: TokenIndex,
    /// The insides of its strings, joined.
    pub(crate) raw: Cow<'s, [u8]>,
    /// The attribute or the option that it belongs to.
    pub(crate) section: Option<Keyword>,
    /// Whether it is the list of choices of a SELECT_FROM_LIST.
    pub(crate) is_choices: bool,
    pub(crate) is_after_comma: bool,
    pub(crate) is_before_comma: bool,
    /// A string that begins with a letter where the one before it ends with one.
    pub(crate) seam: Option<TokenIndex>,
    /// A string that goes on with a sentence, and no blank is between.
    pub(crate) run_on: Option<TokenIndex>,
}

/// A walk over the tokens.
#[derive(Default)]
struct Gathering<'s> {
    all: Vec<Spoken<'s>>,
    section: Option<Keyword>,
    /// Whether the token before is a string, or a comma.
    goes_on: bool,
    is_after_comma: bool,
    /// Whether a SELECT_FROM_LIST is open, and whether its first text is passed.
    selects: bool,
    lists: bool,
}

// The inside of a string.
fn inside<'s>(source: Source<'s>, at: TokenIndex) -> &'s [u8] {
    match source.bytes(at) {
        [_, inside @ .., _] => inside,
        _ => &[],
    }
}

// Whether a word begins an attribute, an option or a part of a transaction.
fn begins_section(word: Keyword) -> bool {
    TextAttribute::from_word(word).is_some()
        || matches!(
            word,
            Keyword::Type
                | Keyword::DefaultValue
                | Keyword::DisplayFormat
                | Keyword::EditFormat
                | Keyword::ResponseCodes
                | Keyword::Items
                | Keyword::Members
                | Keyword::Elements
                | Keyword::Definition
        )
}

// Whether a byte is one of a word: a letter, a digit, or part of a letter of more bytes.
fn is_of_word(byte: u8) -> bool {
    byte.is_ascii_alphanumeric() || !byte.is_ascii()
}

// Whether two strings that follow each other meet in what looks like one word. A digit or a single
// letter behind is what a macro numbers things with.
fn meets(before: &[u8], behind: &[u8]) -> bool {
    match (before, behind) {
        ([.., last], [first, _, ..]) => {
            is_of_word(*last)
                && is_of_word(*first)
                && !first.is_ascii_digit()
                && !before.ends_with(b"\\n")
        }
        _ => false,
    }
}

// Whether a string goes on with a sentence of the strings before it, and a blank is missing between. A
// single word may be what a macro stands for, and addresses have no blanks.
fn runs_on(before: &[u8], behind: &[u8], is_choices: bool) -> bool {
    let start = before.len().saturating_sub(LONGEST_SENTENCE);
    let before = before.get(start..).unwrap_or_default();
    let sentence = before.rsplit(|byte| *byte == b'|').next();
    let sentence = sentence.unwrap_or_default();
    let last_word = sentence.rsplit(|byte| *byte == b' ').next();
    let is_address = last_word.is_some_and(|word| word.contains(&b'/') || word.starts_with(b"www"));
    let begins = matches!(behind, [b'a'..=b'z' | b'A'..=b'Z', b'a'..=b'z' | b' ', ..]);
    let goes_on = behind.contains(&b' ') || sentence.split(|byte| *byte == b' ').count() > 2;
    let is_ended = match sentence {
        [.., b'.' | b',' | b':' | b'!' | b'?'] => true,
        [.., b';'] => !is_choices,
        [.., b'a'..=b'z'] => sentence.contains(&b' '),
        _ => false,
    };
    let is_escape = sentence.ends_with(b"\\n") || sentence.ends_with(b"\\t");
    begins && is_ended && goes_on && !is_address && !is_escape
}

impl<'s> Gathering<'s> {
    fn add(&mut self, source: Source<'s>, at: TokenIndex) {
        if source.kind(at) != Some(TokenKind::String) {
            return self.pass(source, at);
        }
        let inside = inside(source, at);
        match self.all.last_mut().filter(|_| self.goes_on) {
            Some(last) => {
                if last.seam.is_none() && meets(&last.raw, inside) {
                    last.seam = Some(at);
                }
                if last.run_on.is_none() && runs_on(&last.raw, inside, last.is_choices) {
                    last.run_on = Some(at);
                }
                last.raw.to_mut().extend_from_slice(inside);
            }
            None => self.all.push(Spoken {
                at,
                raw: Cow::Borrowed(inside),
                section: self.section,
                is_choices: self.lists,
                is_after_comma: self.is_after_comma,
                is_before_comma: false,
                seam: None,
                run_on: None,
            }),
        }
        self.goes_on = true;
    }

    // What a token that is no string changes.
    fn pass(&mut self, source: Source<'s>, at: TokenIndex) {
        self.is_after_comma = false;
        match source.kind(at) {
            Some(TokenKind::Keyword(word)) if begins_section(word) => self.section = Some(word),
            Some(TokenKind::Name) => {
                let select = RequestKind::SelectFromList.name();
                self.selects = source.bytes(at) == select.as_bytes();
                self.lists = false;
            }
            Some(TokenKind::Symbol(Symbol::Comma)) => {
                self.is_after_comma = true;
                self.lists = self.selects;
                if let Some(last) = self.all.last_mut() {
                    last.is_before_comma |= self.goes_on;
                }
            }
            Some(TokenKind::Symbol(Symbol::Semicolon)) => {
                self.selects = false;
                self.lists = false;
            }
            _ => {}
        }
        self.goes_on = false;
    }
}

/// All texts of a description.
pub(crate) fn spoken_in(source: Source<'_>) -> Vec<Spoken<'_>> {
    let mut gathering = Gathering::default();
    for at in 0..source.tokens.len() {
        gathering.add(source, at);
    }
    gathering.all
}
