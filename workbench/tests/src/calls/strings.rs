//! Splits texts by language, and numbers them in a table. Texts have the escapes of `unescaped`.
//!
//! - `splits`: the variants of a text, or the error.
//! - `choices`: the text for the language that the row asks.
//! - `numbered`: the answers of one table to lines: `add TEXT` or `add [KEY]` answers the number, `cut COUNT`
//!   how many strings are left, `last` the last string.

use super::bytes_of;
use crate::images::number;
use crate::playing::NoAnswer;
use edd_plain_std::alloc::Global;
use edd_strings::{StringFault, Table, choose, key, split};
use edd_syntax::words::Words;

/// Writes variants as `code=text` with a `;` between them, and a key in brackets.
fn written(words: &Words) -> String {
    match words {
        Words::Key(key) => format!("[{}]", key.name),
        Words::Variants { first, rest } => {
            let variants = std::iter::once(first).chain(rest);
            let pairs =
                variants.map(|variant| format!("{}={}", variant.code, variant.text.as_str()));
            pairs.collect::<Vec<_>>().join(";")
        }
    }
}

/// Splits a text; two keys are written in brackets.
fn words_of(text: &str) -> Result<Result<Words, StringFault>, NoAnswer> {
    match text {
        "[A]" => return Ok(key(Global, "A")),
        "[pressure_unit]" => return Ok(key(Global, "pressure_unit")),
        _ => {}
    }
    let text = String::from_utf8(bytes_of(text)?);
    let text = text.map_err(|_| NoAnswer::Row("bytes that are no text"))?;
    Ok(split(Global, &text))
}

pub fn variants(text: &str) -> Result<String, NoAnswer> {
    Ok(match words_of(text)? {
        Ok(words) => written(&words),
        Err(StringFault::BadEscape) => "a bad escape".to_owned(),
        Err(_) => "refused".to_owned(),
    })
}

pub fn choice(language: &str, text: &str) -> Result<String, NoAnswer> {
    Ok(match words_of(text)? {
        Ok(words) => choose(&words, language).to_owned(),
        Err(_) => "refused".to_owned(),
    })
}

/// Takes a line, and returns its answer.
fn take(table: &mut Table, line: &str) -> Result<String, NoAnswer> {
    let (word, rest) = line.split_once(' ').unwrap_or((line, ""));
    match word {
        "add" => Ok(match words_of(rest)?.and_then(|words| table.add(words)) {
            Ok(number) => number.0.to_string(),
            Err(_) => "refused".to_owned(),
        }),
        "cut" => {
            table.cut(number(rest)?);
            Ok(format!("{} left", table.words().len()))
        }
        "last" => Ok(table
            .words()
            .last()
            .map_or_else(|| "none".to_owned(), written)),
        _ => Err(NoAnswer::Row("neither add, cut nor last")),
    }
}

pub fn numbers(lines: &str) -> Result<String, NoAnswer> {
    let mut table = Table::new(Global);
    let answers = lines.lines().map(|line| take(&mut table, line));
    Ok(answers.collect::<Result<Vec<_>, _>>()?.join(", "))
}
