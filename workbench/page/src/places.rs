//! Where a source declares what a line of `dump` is about.
use crate::Stop;
use core::str::from_utf8;
use edd_lexer::lex;
use edd_lexer::token::{Token, TokenKind};
use edd_syntax::symbols::Symbol;
use serde::Serialize;
use std::alloc::Global;

/// A place in a source: the line, counted from 1, and units of UTF-16 before it on that line.
#[derive(Serialize)]
pub struct Spot {
    line: u32,
    before: usize,
    length: usize,
}

/// Whether a text is one word that is never a name.
pub fn is_reserved(text: &[u8]) -> bool {
    match lex(Global, text) {
        Ok(tokens) => matches!(&*tokens, [token] if matches!(token.kind, TokenKind::Keyword(_))),
        Err(_) => false,
    }
}

/// The words of the line: the name of an item, and of a row that of its attribute.
fn words_of(line: &str) -> Option<(&str, Option<&str>)> {
    let mut words = line.split(' ');
    match words.next()? {
        "row" => {
            let name = words.nth(3)?;
            Some((name, words.next()?.split('[').next()))
        }
        "variable" | "command" | "menu" | "method" | "collection" | "array" => {
            Some((words.nth(1)?, None))
        }
        _ => None,
    }
}

struct Tokens<'a> {
    text: &'a [u8],
    tokens: &'a [Token],
}

impl Tokens<'_> {
    fn is(&self, at: usize, word: &str) -> bool {
        let token = self.tokens[at];
        self.text.get(token.start as usize..token.end as usize) == Some(word.as_bytes())
    }

    fn change_of_depth(&self, at: usize) -> i64 {
        match self.tokens[at].kind {
            TokenKind::Symbol(Symbol::OpenBrace) => 1,
            TokenKind::Symbol(Symbol::CloseBrace) => -1,
            _ => 0,
        }
    }

    /// The name of an item stands outside of braces, behind its kind.
    fn item(&self, name: &str) -> Option<usize> {
        let mut depth = 0;
        for at in 0..self.tokens.len() {
            if depth == 0 && self.tokens[at].kind == TokenKind::Name && self.is(at, name) {
                return Some(at);
            }
            depth += self.change_of_depth(at);
        }
        None
    }

    /// The word of an attribute in the braces of an item.
    fn attribute(&self, item: usize, word: &str) -> Option<usize> {
        let mut depth = 0;
        for at in item + 1..self.tokens.len() {
            depth += self.change_of_depth(at);
            if depth <= 0 && at > item + 1 {
                return None;
            }
            if matches!(self.tokens[at].kind, TokenKind::Keyword(_)) && self.is(at, word) {
                return Some(at);
            }
        }
        None
    }

    fn spot(&self, at: usize) -> Option<Spot> {
        let token = self.tokens[at];
        let (start, end) = (token.start as usize, token.end as usize);
        let before = self.text.get(..start)?;
        let line_start = before
            .iter()
            .rposition(|byte| *byte == b'\n')
            .map_or(0, |at| at + 1);
        Some(Spot {
            line: token.line,
            before: units(&before[line_start..]),
            length: units(self.text.get(start..end)?),
        })
    }
}

/// The units of UTF-16 of a text, without a byte order mark.
fn units(bytes: &[u8]) -> usize {
    let text = from_utf8(bytes).unwrap_or("");
    text.trim_start_matches('\u{feff}').encode_utf16().count()
}

/// The place of the attribute, or else of the item; none where the source has none.
pub fn find(text: &[u8], line: &[u8]) -> Result<Option<Spot>, Stop> {
    let Ok(tokens) = lex(Global, text) else {
        return Ok(None);
    };
    let Some((name, word)) = from_utf8(line).ok().and_then(words_of) else {
        return Ok(None);
    };
    let tokens = Tokens {
        text,
        tokens: &tokens,
    };
    let Some(item) = tokens.item(name) else {
        return Ok(None);
    };
    let at = word.and_then(|word| tokens.attribute(item, word));
    Ok(tokens.spot(at.unwrap_or(item)))
}
