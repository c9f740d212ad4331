//! The way through the tokens of a method.

use edd_lexer::token::{Token, TokenKind};
use edd_syntax::numbers::TokenNo;
use edd_syntax::symbols::{Keyword, Symbol};

/// The number of a token.
pub(crate) type TokenIndex = usize;

/// The number of the token that a node names.
pub(crate) fn index_of(at: TokenNo) -> TokenIndex {
    usize::try_from(at.0).unwrap_or(usize::MAX)
}

/// Tokens, of which some were passed.
#[derive(Clone, Copy, Debug)]
pub(crate) struct TokenCursor<'t> {
    tokens: &'t [Token],
    passed: TokenIndex,
}

impl<'t> TokenCursor<'t> {
    /// The tokens behind one of them.
    pub(crate) fn behind(tokens: &'t [Token], token: TokenIndex) -> TokenCursor<'t> {
        let passed = token.saturating_add(1);
        TokenCursor { tokens, passed }
    }

    /// Passes the tokens up to this one, and returns it.
    pub(crate) fn pass(&mut self, token: TokenIndex) -> TokenIndex {
        self.passed = token.saturating_add(1);
        token
    }

    /// Passes the next token of this kind, and returns it. Where there is none, it is behind the last.
    fn pass_kind(&mut self, kind: TokenKind) -> TokenIndex {
        let rest = self.tokens.get(self.passed..).unwrap_or_default();
        let found = rest.iter().position(|token| token.kind == kind);
        let distance = found.unwrap_or(rest.len());
        self.pass(self.passed.saturating_add(distance))
    }

    pub(crate) fn pass_sign(&mut self, sign: Symbol) -> TokenIndex {
        self.pass_kind(TokenKind::Symbol(sign))
    }

    pub(crate) fn pass_word(&mut self, word: Keyword) -> TokenIndex {
        self.pass_kind(TokenKind::Keyword(word))
    }
}
