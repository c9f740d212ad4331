//! The tokens of a text by their numbers, and which of them belong together.

use crate::pairs::find_partners;
use edd_lexer::token::{Token, TokenKind};
use edd_source::Span;
use edd_syntax::symbols::{Keyword, Symbol};

/// A text with its tokens.
pub(crate) struct Tokens<'a> {
    text: &'a str,
    tokens: &'a [Token],
    partners: Vec<Option<usize>>,
}

impl<'a> Tokens<'a> {
    pub(crate) fn new(text: &'a str, tokens: &'a [Token]) -> Tokens<'a> {
        Tokens {
            text,
            tokens,
            partners: find_partners(tokens),
        }
    }

    pub(crate) fn len(&self) -> usize {
        self.tokens.len()
    }

    /// The text that a token stands for.
    pub(crate) fn text(&self, number: usize) -> &'a str {
        let token = self.tokens.get(number);
        token
            .and_then(|token| Span::of(token).text(self.text))
            .unwrap_or_default()
    }

    /// What stands between a token and the one before it. The last gap is before the text's end.
    pub(crate) fn gap_before(&self, number: usize) -> &'a str {
        let before = number.checked_sub(1).and_then(|it| self.tokens.get(it));
        let gap = Span {
            start: before.map_or(0, |before| Span::of(before).end),
            end: self
                .tokens
                .get(number)
                .map_or(self.text.len(), |token| Span::of(token).start),
        };
        gap.text(self.text).unwrap_or_default()
    }

    pub(crate) fn kind(&self, number: usize) -> Option<TokenKind> {
        Some(self.tokens.get(number)?.kind)
    }

    /// The brace, parenthesis or bracket that belongs to that of a number.
    pub(crate) fn partner(&self, number: usize) -> Option<usize> {
        *self.partners.get(number)?
    }

    pub(crate) fn keyword(&self, number: usize) -> Option<Keyword> {
        match self.kind(number)? {
            TokenKind::Keyword(keyword) => Some(keyword),
            _ => None,
        }
    }

    pub(crate) fn keyword_before(&self, number: usize) -> Option<Keyword> {
        self.keyword(number.checked_sub(1)?)
    }

    pub(crate) fn keyword_after(&self, number: usize) -> Option<Keyword> {
        self.keyword(number.checked_add(1)?)
    }

    pub(crate) fn symbol(&self, number: usize) -> Option<Symbol> {
        match self.kind(number)? {
            TokenKind::Symbol(symbol) => Some(symbol),
            _ => None,
        }
    }

    pub(crate) fn symbol_before(&self, number: usize) -> Option<Symbol> {
        self.symbol(number.checked_sub(1)?)
    }

    pub(crate) fn is_string(&self, number: usize) -> bool {
        self.kind(number) == Some(TokenKind::String)
    }

    pub(crate) fn is_string_before(&self, number: usize) -> bool {
        number
            .checked_sub(1)
            .is_some_and(|before| self.is_string(before))
    }

    /// The word whose condition or parts a parenthesis closes.
    pub(crate) fn header_keyword(&self, close: usize) -> Option<Keyword> {
        if self.symbol(close)? != Symbol::CloseParenthesis {
            return None;
        }
        self.keyword_before(self.partner(close)?).filter(|word| {
            matches!(
                word,
                Keyword::If
                    | Keyword::Select
                    | Keyword::MethodIf
                    | Keyword::While
                    | Keyword::For
                    | Keyword::Switch
            )
        })
    }

    /// Whether a brace begins what follows an ELSE, or the IF behind an ELSE.
    pub(crate) fn is_after_else(&self, brace: usize) -> bool {
        let is_else = |word: Option<Keyword>| word == Some(Keyword::Else);
        is_else(self.keyword_before(brace)) || is_else(self.keyword_before_if(brace))
    }

    /// The word before an IF whose first brace is that of a number.
    fn keyword_before_if(&self, brace: usize) -> Option<Keyword> {
        let close = brace.checked_sub(1)?;
        if self.header_keyword(close)? != Keyword::If {
            return None;
        }
        self.keyword(self.partner(close)?.checked_sub(2)?)
    }

    /// The last brace of an IF with all that follows its ELSE, where one of its braces closes at a
    /// number; else that number.
    pub(crate) fn chain_end(&self, close: usize) -> usize {
        let mut end = close;
        while let Some(next) = self.end_of_else_after(end) {
            end = next;
        }
        end
    }

    /// The brace that closes what follows an ELSE directly behind a brace.
    fn end_of_else_after(&self, close: usize) -> Option<usize> {
        let word = close.checked_add(1)?;
        if self.keyword(word)? != Keyword::Else {
            return None;
        }
        let next = word.checked_add(1)?;
        let brace = match self.kind(next)? {
            TokenKind::Keyword(Keyword::If) => self.brace_after_condition(next)?,
            _ => next,
        };
        match self.symbol(brace)? {
            Symbol::OpenBrace => self.partner(brace),
            _ => None,
        }
    }

    /// The place behind the condition of an IF.
    fn brace_after_condition(&self, word: usize) -> Option<usize> {
        let open = word.checked_add(1)?;
        match self.symbol(open)? {
            Symbol::OpenParenthesis => self.partner(open)?.checked_add(1),
            _ => None,
        }
    }
}
