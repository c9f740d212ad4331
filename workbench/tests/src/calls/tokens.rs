//! Lexes texts with the escapes of `unescaped`.
//!
//! - `tokens`: the kind of each token, or the error.
//! - `places`: the same, each with its bytes and its line.
//! - `lengths`: the kinds of the tokens of so many blanks or letters, as `256 letters`.

use super::bytes_of;
use crate::images::number;
use crate::playing::NoAnswer;
use edd_lexer::lex;
use edd_lexer::token::Token;
use edd_plain_std::alloc::Global;

fn kind(token: &Token) -> String {
    format!("{:?}", token.kind)
}

fn place(token: &Token) -> String {
    format!(
        "{}-{} line {} {:?}",
        token.start, token.end, token.line, token.kind
    )
}

/// Writes the tokens of these bytes, or their fault.
fn printed(bytes: &[u8], written: fn(&Token) -> String) -> String {
    match lex(Global, bytes) {
        Ok(tokens) => tokens.iter().map(written).collect::<Vec<_>>().join(" "),
        Err(fault) => fault.to_string(),
    }
}

pub fn kinds(text: &str) -> Result<String, NoAnswer> {
    Ok(printed(&bytes_of(text)?, kind))
}

pub fn places(text: &str) -> Result<String, NoAnswer> {
    Ok(printed(&bytes_of(text)?, place))
}

pub fn length(text: &str) -> Result<String, NoAnswer> {
    let byte = match text.split_once(' ') {
        Some((_, "letters")) => b'a',
        Some((_, "blanks")) => b' ',
        _ => return Err(NoAnswer::Row("neither letters nor blanks")),
    };
    let (count, _) = text.split_once(' ').unwrap_or((text, ""));
    Ok(printed(&vec![byte; number(count)?], kind))
}
