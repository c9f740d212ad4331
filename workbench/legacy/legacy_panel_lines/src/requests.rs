//! The lines of a method's requests.
use std::prelude::v1::*;

use crate::texts::{push_escaped, push_text};
use edd_instructions::{Request, RequestArgument, Wanted};
use edd_panel::text_of_choices;
use edd_sinks::TextSink;
use edd_syntax::numbers::StrNo;
use legacy_screens::Page;

/// Appends the choices, numbered from 1.
pub fn push_choices(lines: &mut TextSink, page: &Page<'_, '_>, choices: StrNo) {
    let mut number = 0i64;
    for choice in text_of_choices(page.image, choices, page.language).split(';') {
        number = number.saturating_add(1);
        write!(lines, "  {number} ");
        push_escaped(lines, choice.trim());
        lines.push('\n');
    }
}

// The name of a request, and its numbers.
fn push_command(lines: &mut TextSink, request: Request) {
    lines.push_str(request.kind().name());
    let arguments = request.arguments();
    for argument in &arguments {
        if let RequestArgument::Number(number) = argument {
            write!(lines, " {number}");
        }
    }
    lines.push('\n');
}

// What a request shows: its first text, after the time for which it is shown.
fn push_shown(lines: &mut TextSink, page: &Page<'_, '_>, request: Request) {
    let arguments = request.arguments();
    for argument in &arguments {
        match *argument {
            RequestArgument::Number(time) => write!(lines, "wait {time}: "),
            RequestArgument::Text(text) => {
                if let Some(text) = page.text(text) {
                    push_text(lines, text);
                }
                break;
            }
            RequestArgument::Variable(_) => {}
        }
    }
    lines.push('\n');
}

/// Appends the line of a request, without what can be chosen.
pub fn push_question(lines: &mut TextSink, page: &Page<'_, '_>, request: Request) {
    match request.wanted() {
        Wanted::Code => push_command(lines, request),
        Wanted::Nothing | Wanted::Value(_) | Wanted::Choice(_) => push_shown(lines, page, request),
    }
}

/// Appends the lines of a request. Those of the variable that GET_DEV_VAR_VALUE asks for are not
/// among them.
pub fn push_request(lines: &mut TextSink, page: &Page<'_, '_>, request: Request) {
    push_question(lines, page, request);
    if let Wanted::Choice(choices) = request.wanted() {
        push_choices(lines, page, choices);
    }
}

/// What a request asks of the user.
pub fn asks_for(request: Request) -> &'static str {
    match request.wanted() {
        Wanted::Nothing => "Enter?",
        Wanted::Value(_) => "value?",
        Wanted::Choice(_) => "choice?",
        Wanted::Code => "code?",
    }
}
