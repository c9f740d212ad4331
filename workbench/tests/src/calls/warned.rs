//! Finds warnings.
//!
//! - `warnings`: the warnings of items, which begin at line 2: line, word and lint of each, and line and word
//!   of its other place.
//! - `bodies`: the same of the body of a method. If a row asks `instrument`, more is declared around it.
//! - `messages` and `body_messages`: the message of the first warning.
//! - `lints`: the lint of a name, or `all of them`.

use crate::playing::NoAnswer;
use edd_compiler::checked_of;
use edd_lexer::lex;
use edd_lints::{LINTS, Level, Levels, Lint, Warning, find};
use edd_plain_std::alloc::Global;
use edd_source::Span;

const HEAD: &str = "MANUFACTURER 1 DEVICE_TYPE 2 DEVICE_REVISION 3 DD_REVISION 4\n";

/// What stands around a body.
const AROUND: (&str, &str) = (
    "VARIABLE a { CONSTANT_UNIT IF (r[1]) { \"m\"; } ELSE { \"mm\"; } TYPE INTEGER; } ARRAY OF VARIABLE r { ELEMENTS { 1, a; } }
METHOD m { DEFINITION {\n",
    "} }",
);

/// The same with variables of several types, an array and a command.
const INSTRUMENT: (&str, &str) = (
    "VARIABLE a { TYPE INTEGER; } VARIABLE u { TYPE UNSIGNED_INTEGER (4); } VARIABLE r { HANDLING READ; TYPE INTEGER; }
VARIABLE e { TYPE ENUMERATED { { 0, \"off\" } { 2, \"on\" } } } ARRAY OF VARIABLE f { ELEMENTS { 1, a; 2, e; 3, r; 4, u; } }
COMMAND c { NUMBER 130; OPERATION READ; TRANSACTION 0 { } } METHOD m { DEFINITION {\n",
    "} } METHOD n { DEFINITION { a = f[1]; } }",
);

/// The lints that are off unless asked for, and that rows ask for without saying so.
const ASKED: [Lint; 5] = [
    Lint::LiteralCondition,
    Lint::UndeclaredCommand,
    Lint::UnreachedMethod,
    Lint::UnreachedMenu,
    Lint::TrapAfterAbortMethod,
];

/// Returns the levels with which rows are played.
fn levels() -> Levels {
    let mut levels = Levels::default();
    for lint in ASKED {
        levels.set(lint, Level::Warn);
    }
    levels
}

/// Returns the warnings of a text, unless it is refused.
fn warnings_of(text: &[u8]) -> Result<Vec<Warning>, NoAnswer> {
    let refused = NoAnswer::Row("items that are refused");
    let tokens = lex(Global, text).map_err(|_| refused)?;
    let checked = checked_of(Global, text).map_err(|_| refused)?;
    Ok(find(text, &tokens, &checked, &levels()))
}

/// Writes the line and the word of a place.
fn line_and_word(text: &[u8], at: Span) -> String {
    let before = text.get(..at.start).unwrap_or_default();
    let line = before.split(|byte| *byte == b'\n').count();
    let word = text.get(at.range()).unwrap_or_default();
    format!("{line} {}", String::from_utf8_lossy(word))
}

/// Writes a warning without its message.
fn written(text: &[u8], warning: &Warning) -> String {
    let (at, name) = (
        line_and_word(text, warning.span),
        warning.kind.lint().name(),
    );
    match warning.related.first() {
        Some(other) => format!("{at} {name} at {}", line_and_word(text, other.span)),
        None => format!("{at} {name}"),
    }
}

pub fn warnings_of_items(items: &str) -> Result<String, NoAnswer> {
    let text = format!("{HEAD}{items}");
    let warnings = warnings_of(text.as_bytes())?;
    let lines = warnings
        .iter()
        .map(|warning| written(text.as_bytes(), warning));
    Ok(lines.collect::<Vec<_>>().join("; "))
}

/// Puts a body into a method.
fn items_around(asked: &str, body: &str) -> String {
    let (before, after) = if asked == "instrument" {
        INSTRUMENT
    } else {
        AROUND
    };
    format!("{before}{body}\n{after}")
}

pub fn warnings_of_body(asked: &str, body: &str) -> Result<String, NoAnswer> {
    warnings_of_items(&items_around(asked, body))
}

pub fn message_of_body(asked: &str, body: &str) -> Result<String, NoAnswer> {
    first_message(&items_around(asked, body))
}

pub fn first_message(items: &str) -> Result<String, NoAnswer> {
    let text = format!("{HEAD}{items}");
    let warnings = warnings_of(text.as_bytes())?;
    let first = warnings.first().map(|first| first.kind.to_string());
    Ok(first.unwrap_or_default())
}

/// Lists the names of all lints, and says which of them names another lint.
fn all_lints() -> String {
    let names = LINTS.iter().map(|lint| match Lint::from_name(lint.name()) {
        Some(named) if named == *lint => lint.name().to_owned(),
        _ => format!("{} names another", lint.name()),
    });
    names.collect::<Vec<_>>().join("\n")
}

pub fn lint(name: &str) -> String {
    match Lint::from_name(name) {
        _ if name == "all of them" => all_lints(),
        Some(lint) => lint.name().to_owned(),
        None => "none".to_owned(),
    }
}
