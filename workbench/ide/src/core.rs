//! The core's calls with std types. Where memory is refused the program ends as the rest of Rust
//! does.

use core_std::alloc::Global;
use edd_lexer::fault::LexFault;
use edd_lexer::token::Token;
use edd_names::resolve;
use edd_parser::parse;
use edd_strings::StringFault;
use edd_syntax::resolved::Resolved;
use edd_syntax::words::Words;
use std::alloc::{Layout, handle_alloc_error};

/// Ends the program as the rest of Rust does where memory for a `T` is refused.
fn refused<T>() -> ! {
    handle_alloc_error(Layout::new::<T>())
}

/// The tokens of a text, or its lexical fault.
pub(crate) fn lex(text: &[u8]) -> Result<Vec<Token>, LexFault> {
    match edd_lexer::lex(Global, text) {
        Ok(tokens) => Ok(tokens.into_real()),
        Err(LexFault::Memory) => refused::<Token>(),
        Err(fault) => Err(fault),
    }
}

/// The description that a text is, with its names resolved; none of a text that is refused.
pub(crate) fn read(text: &str) -> Option<Resolved> {
    let tokens = edd_lexer::lex(Global, text.as_bytes()).ok()?;
    let unit = parse(Global, text.as_bytes(), &tokens).ok()?;
    resolve(Global, &unit).ok()
}

/// The languages of a string, without its quotes; none of a string that is refused.
pub(crate) fn split(raw: &str) -> Option<Words> {
    match edd_strings::split(Global, raw) {
        Ok(words) => Some(words),
        Err(StringFault::Memory) => refused::<Words>(),
        Err(_) => None,
    }
}
