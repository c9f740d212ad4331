//! What is said of a text that has no tokens, or whose tokens spell no unit.

use crate::core::{lex, parse_fault};
use crate::{Finding, syntax, text};
use edd_lexer::fault::LexFault;
use edd_lexer::token::Token;
use edd_token_reader::fault::ParseFault;

/// Why a text spells no unit.
#[derive(Debug)]
pub enum TextFault {
    /// It has no tokens.
    Lex(LexFault),
    /// Its tokens spell none.
    Parse(ParseFault),
}

/// What is said of a fault.
#[derive(Clone, Debug)]
pub struct Explained {
    /// Where it is shown, and what helps.
    pub finding: Finding,
    /// The byte from which on items may be looked for that are no part of the fault, where one is
    /// known.
    pub resumes_at: Option<usize>,
}

/// The fault of a text that spells no unit, with the tokens that it has.
pub fn text_fault(text: &[u8]) -> Option<(Vec<Token>, TextFault)> {
    match lex(text) {
        Err(fault) => Some((Vec::new(), TextFault::Lex(fault))),
        Ok(tokens) => {
            let fault = TextFault::Parse(parse_fault(text, &tokens)?);
            Some((tokens, fault))
        }
    }
}

/// What is said of the fault of a text with these tokens.
pub fn explain(text: &[u8], tokens: &[Token], fault: &TextFault) -> Explained {
    match fault {
        TextFault::Lex(fault) => text::explain(text, fault),
        TextFault::Parse(fault) => syntax::explain(text, tokens, fault),
    }
}
