//! The core's calls with std types. Where memory is refused the program ends as the rest of Rust
//! does.

use core_std::alloc::{AllocError, Global};
use edd_lexer::fault::LexFault;
use edd_lexer::token::Token;
use edd_token_reader::fault::ParseFault;
use std::alloc::{Layout, handle_alloc_error};

/// What the core made, if it had memory for it.
pub(crate) fn made<T>(answer: Result<T, AllocError>) -> T {
    answer.unwrap_or_else(|AllocError| refused::<T>())
}

fn refused<T>() -> ! {
    handle_alloc_error(Layout::new::<T>())
}

/// The tokens of a text, or its fault.
pub(crate) fn lex(text: &[u8]) -> Result<Vec<Token>, LexFault> {
    match edd_lexer::lex(Global, text) {
        Ok(tokens) => Ok(tokens.into_real()),
        Err(LexFault::Memory) => refused::<Token>(),
        Err(fault) => Err(fault),
    }
}

/// The fault of tokens that spell no unit.
pub(crate) fn parse_fault(text: &[u8], tokens: &[Token]) -> Option<ParseFault> {
    match edd_parser::parse(Global, text, tokens) {
        Ok(_) => None,
        Err(ParseFault::Memory) => refused::<ParseFault>(),
        Err(fault) => Some(fault),
    }
}

/// The number of the token at which the grammar refuses tokens; none where they spell a unit.
pub(crate) fn refused_at(text: &[u8], tokens: &[Token]) -> Option<usize> {
    let place = parse_fault(text, tokens)?.place()?;
    Some(usize::try_from(place.0).unwrap_or(usize::MAX))
}
