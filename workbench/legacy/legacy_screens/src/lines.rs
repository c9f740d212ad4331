//! The lines that a user types.
use std::prelude::v1::*;

use crate::meaning::{choice_meant, decimal, value_meant};
use crate::words::Page;
use edd_machine::Values;
use edd_panel::{Command, Field};
use edd_syntax::numbers::StrNo;
use std::alloc::{AllocError, Global};

/// What a line asks for.
#[derive(Clone, Copy)]
pub enum Line {
    Command(Command),
    /// The help of an entry, or of what is open.
    Help(Option<i64>),
    /// Which commands there are.
    Commands,
    Quit,
    Unknown,
}

/// What a text on a line stands for that is no word.
#[derive(Clone, Copy)]
pub enum Expected {
    /// An entry, or a code.
    Number,
    Value(Field),
    /// One of these choices.
    Choice(StrNo),
}

// A text that is no word.
fn of_text(
    alloc: Global,
    page: &Page<'_, '_>,
    values: &Values,
    expected: Expected,
    text: &str,
) -> Result<Line, AllocError> {
    let number = match expected {
        Expected::Number => decimal(text),
        Expected::Value(field) => value_meant(alloc, page, values, field, text)?,
        Expected::Choice(choices) => choice_meant(page, choices, text),
    };
    match number {
        Some(number) => Ok(Line::Command(Command::Number(number))),
        None => Ok(Line::Unknown),
    }
}

// `h` and a number.
fn help_of(text: &str) -> Option<Line> {
    let rest = text.strip_prefix('h')?;
    if rest.is_empty() {
        return Some(Line::Help(None));
    }
    let number = rest.strip_prefix(' ')?;
    Some(Line::Help(Some(decimal(number.trim())?)))
}

/// What a line asks for, where a text stands for this.
pub fn read_line(
    alloc: Global,
    page: &Page<'_, '_>,
    values: &Values,
    expected: Expected,
    line: &str,
) -> Result<Line, AllocError> {
    match line.trim() {
        "" => Ok(Line::Command(Command::Enter)),
        "b" => Ok(Line::Command(Command::Back)),
        "q" => Ok(Line::Quit),
        "?" => Ok(Line::Commands),
        "abort" => Ok(Line::Command(Command::Abort)),
        text => match help_of(text) {
            Some(line) => Ok(line),
            None => of_text(alloc, page, values, expected, text),
        },
    }
}
