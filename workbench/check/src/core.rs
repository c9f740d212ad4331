//! The core's calls with std types. Where memory is refused the program ends as the rest of Rust
//! does.

use core_std::alloc::{AllocError, Global};
use edd_findings::Verdict;
use edd_lexer::token::Token;
use edd_syntax::unit::Unit;
use std::alloc::{Layout, handle_alloc_error};

/// What the core made, if it had memory for it.
pub(crate) fn made<T>(answer: Result<T, AllocError>) -> T {
    answer.unwrap_or_else(|AllocError| refused::<T>())
}

/// Ends the program as the rest of Rust does where memory for a `T` is refused.
pub(crate) fn refused<T>() -> ! {
    handle_alloc_error(Layout::new::<T>())
}

/// The core's verdict on a text.
pub(crate) fn judge(text: &[u8]) -> Verdict {
    made(edd_findings::judge(Global, text))
}

/// The tokens of a text; none of one that has no tokens.
pub(crate) fn tokens_of(text: &[u8]) -> Vec<Token> {
    match edd_compiler::tokens_of(Global, text) {
        Ok(tokens) => tokens.into_real(),
        Err(_) => Vec::new(),
    }
}

/// The unit that these tokens of a text spell.
pub(crate) fn unit_of(text: &[u8], tokens: &[Token]) -> Option<Unit> {
    edd_compiler::unit_from(Global, text, tokens).ok()
}
