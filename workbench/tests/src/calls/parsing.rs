//! Parses texts.
//!
//! - `texts`: how many items the text has, or the error.
//! - `items`: the same of items below an identification, which begin at line 2.
//! - `repeated`: the same, with the second and the fourth line of the text as many times as the row asks.
//! - `nested`: how many statements are parsed. Lines with a `$` are frames, the others are statements; each
//!   statement is put into each pair of frames.

use super::bytes_of;
use crate::images::number;
use crate::playing::NoAnswer;
use edd_lexer::token::Token;
use edd_lexer::{lex, line_of};
use edd_parser::fault::ParseFault;
use edd_parser::parse;
use edd_plain_std::alloc::Global;
use edd_syntax::unit::Unit;

const HEAD: &str = "MANUFACTURER 1 DEVICE_TYPE 2, DEVICE_REVISION 3 DD_REVISION 4\n";

/// Returns the unit of these items, unless they are refused.
pub fn unit_of_items(items: &str) -> Result<Unit, NoAnswer> {
    let text = format!("{HEAD}{items}");
    let tokens = lex(Global, text.as_bytes()).map_err(|_| NoAnswer::Row("refused tokens"))?;
    let unit = parse(Global, text.as_bytes(), &tokens);
    unit.map_err(|_| NoAnswer::Row("items that are refused"))
}

/// Writes a fault with the line of its token.
fn refusal_of(text: &[u8], tokens: &[Token], fault: &ParseFault) -> String {
    match fault {
        ParseFault::Syntax { at } | ParseFault::TooDeep { at } => {
            format!("{fault} line {}", line_of(text, tokens, *at))
        }
        ParseFault::Unsupported { .. } | ParseFault::Memory => fault.to_string(),
    }
}

pub fn answer(text: &str) -> String {
    let tokens = match lex(Global, text.as_bytes()) {
        Ok(tokens) => tokens,
        Err(fault) => return fault.to_string(),
    };
    match parse(Global, text.as_bytes(), &tokens) {
        Ok(unit) => unit.items.len().to_string(),
        Err(fault) => refusal_of(text.as_bytes(), &tokens, &fault),
    }
}

pub fn item_answer(items: &str) -> String {
    answer(&format!("{HEAD}{items}"))
}

pub fn repeated(asked: &str, pieces: &str) -> Result<String, NoAnswer> {
    let count = number(asked)?;
    let mut text = Vec::new();
    for (piece, times) in pieces
        .split('\n')
        .zip([1, count, 1, count].into_iter().chain(std::iter::repeat(1)))
    {
        text.extend(bytes_of(piece)?.repeat(times));
    }
    let text = String::from_utf8(text).map_err(|_| NoAnswer::Row("bytes that are no text"))?;
    Ok(item_answer(&text))
}

/// Returns whether a statement is parsed inside one frame inside another.
fn is_read(statement: &str, outer: (&str, &str), inner: (&str, &str)) -> bool {
    let ((before, after), (first, last)) = (outer, inner);
    let items = format!(
        "METHOD m {{ DEFINITION {{ while (x) {{ {before}{first}{statement}{last}{after} }} }} }}"
    );
    item_answer(&items) == "1"
}

pub fn nested(lines: &str) -> String {
    let frames = || lines.lines().filter_map(|line| line.split_once('$'));
    let statements = || lines.lines().filter(|line| !line.contains('$'));
    let pairs = frames().flat_map(|outer| frames().map(move |inner| (outer, inner)));
    let all = pairs.flat_map(|pair| statements().map(move |statement| (pair, statement)));
    all.filter(|((outer, inner), statement)| is_read(statement, *outer, *inner))
        .count()
        .to_string()
}
