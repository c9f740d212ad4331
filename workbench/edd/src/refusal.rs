//! Why a source is refused.

use crate::memory::{Global, refused};
use edd_compiler::Fault;
use edd_lexer::fault::LexFault;
use edd_lexer::{lex, line_of};
use edd_syntax::numbers::TokenNo;

pub use edd_report::Refusal;

/// The refusal of a source for a fault that the compiler found in it.
pub(crate) fn refusal_of_source(fault: &Fault, source: &[u8]) -> Refusal {
    let token = match fault {
        Fault::Parse(fault) => fault.place(),
        Fault::Rule(fault) => fault.place(),
        _ => None,
    };
    let line = token.and_then(|token| line_in(source, token));
    Refusal::of_fault(fault, line).unwrap_or_else(|| refused::<Refusal>())
}

/// The refusal of a source that has no tokens.
pub(crate) fn refusal_of_text(fault: &LexFault) -> Refusal {
    Refusal::of_text(fault, fault.line()).unwrap_or_else(|| refused::<Refusal>())
}

// The line of a token of a source.
fn line_in(source: &[u8], token: TokenNo) -> Option<u32> {
    match lex(Global, source) {
        Ok(tokens) => Some(line_of(source, &tokens, token)),
        Err(LexFault::Memory) => refused::<Refusal>(),
        Err(_) => None,
    }
}
