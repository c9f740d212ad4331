//! The call around a place.

use crate::Document;
use crate::comments::is_unread;
use crate::functions::call_form;
use crate::spots::Place;
use edd_lexer::token::TokenKind;
use edd_source::Span;
use edd_syntax::operators::{Builtin, Parameter};
use edd_syntax::symbols::Symbol;

/// How a function is called.
#[derive(Clone, Debug, PartialEq, Eq)]
pub struct Signature {
    /// As `DELAY(number, text)`.
    pub label: String,
    /// Where its parameters are in the label, in bytes.
    pub parameters: Vec<Span>,
    /// What the function does, in a line.
    pub effect: &'static str,
    /// Which parameter the place is at, counted from 0; past the last one where there are too many
    /// arguments.
    pub active: usize,
}

/// A call that is not closed before a token.
#[derive(Clone, Copy, Debug)]
pub(crate) struct Call {
    pub(crate) function: Builtin,
    /// How many commas of its own come before the token.
    pub(crate) argument: usize,
    /// The token that opens its parentheses.
    pub(crate) open: usize,
}

impl Call {
    /// What the argument before the token is.
    pub(crate) fn parameter(self) -> Option<Parameter> {
        self.function.parameters().get(self.argument).copied()
    }
}

/// The function whose parentheses a token opens.
fn called(document: &Document, open: usize) -> Option<Builtin> {
    let name = open.checked_sub(1)?;
    match document.kind(name)? {
        TokenKind::Name => Builtin::named(document.word(name)),
        _ => None,
    }
}

/// The innermost call of a function whose parentheses are open before a token.
pub(crate) fn call_before(document: &Document, token: usize) -> Option<Call> {
    let mut closed: usize = 0;
    let mut argument: usize = 0;
    for number in (0..token).rev() {
        let Some(TokenKind::Symbol(sign)) = document.kind(number) else {
            continue;
        };
        match sign {
            Symbol::CloseParenthesis | Symbol::CloseBracket => closed = closed.saturating_add(1),
            Symbol::OpenParenthesis | Symbol::OpenBracket if closed != 0 => {
                closed = closed.saturating_sub(1);
            }
            Symbol::OpenParenthesis | Symbol::OpenBracket => {
                if let Some(function) = called(document, number) {
                    return Some(Call {
                        function,
                        argument,
                        open: number,
                    });
                }
                argument = 0;
            }
            Symbol::Comma if closed == 0 => argument = argument.saturating_add(1),
            Symbol::Semicolon | Symbol::OpenBrace | Symbol::CloseBrace => return None,
            _ => {}
        }
    }
    None
}

impl Document {
    /// How the function is called in whose parentheses a byte is.
    pub fn signature(&self, byte: usize) -> Option<Signature> {
        let byte = byte.min(self.text().len());
        let token = self.token_from(byte);
        if self.spot(token).place != Place::Body || is_unread(self, byte) {
            return None;
        }
        let call = call_before(self, token)?;
        let (label, parameters) = call_form(call.function);
        Some(Signature {
            label,
            parameters,
            effect: crate::functions::effect_of(call.function),
            active: call.argument,
        })
    }
}
