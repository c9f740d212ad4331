//! What is shown of a panel at each step.
use std::prelude::v1::*;

use crate::requests::{asks_for, push_request};
use crate::screens::push_screen;
use crate::sheets::push_sheet;
use crate::texts::{push_fault, push_trap, push_words};
use edd_instructions::Request;
use edd_panel::{Field, Happened, Panel};
use edd_port::Turn;
use edd_sinks::TextSink;
use legacy_screens::{Words, page_of, screen_of, sheet_of};
use std::alloc::AllocError;

/// The variable that a request asks for.
pub fn field_asked(request: Request) -> Option<Field> {
    match request {
        Request::GetDevVarValue(_, variable) => Some(Field {
            variable,
            read_only: false,
        }),
        _ => None,
    }
}

// A variable that is open, or that a method asks for.
fn push_field(lines: &mut TextSink, panel: &Panel<'_, '_>, field: Field, asked: bool) {
    match sheet_of(lines.alloc, panel, field, asked) {
        Ok(sheet) => push_sheet(lines, &sheet),
        Err(AllocError) => lines.refuse(),
    }
}

/// Appends a request of the method that runs, with the variable that it asks for.
pub fn push_asked(lines: &mut TextSink, panel: &Panel<'_, '_>, request: Request) {
    push_request(lines, &page_of(panel), request);
    if let Some(field) = field_asked(request) {
        push_field(lines, panel, field, true);
    }
}

// The menu where the user is.
fn push_menu(lines: &mut TextSink, panel: &Panel<'_, '_>) {
    match screen_of(lines.alloc, panel) {
        Ok(screen) => push_screen(lines, &screen),
        Err(AllocError) => lines.refuse(),
    }
}

/// Appends what is shown of a panel: the request of the method that runs, the variable that is
/// open, or the menu.
pub fn push_view(lines: &mut TextSink, panel: &Panel<'_, '_>) {
    match (panel.turn(), panel.field()) {
        (Some(Turn::Asks(request)), _) => push_asked(lines, panel, request),
        (Some(_), _) => lines.push_str("the method still runs\n"),
        (None, Some(field)) => push_field(lines, panel, field, false),
        (None, None) => push_menu(lines, panel),
    }
}

/// What is asked of the user.
pub fn prompt_of(panel: &Panel<'_, '_>) -> &'static str {
    match (panel.turn(), panel.field()) {
        (Some(Turn::Asks(request)), _) => asks_for(request),
        (Some(_), _) => "Enter?",
        (None, Some(_)) => "value?",
        (None, None) => "entry?",
    }
}

/// Appends how a method ended, where it is over.
pub fn push_end(lines: &mut TextSink, turn: Turn) {
    match turn {
        Turn::Ended => lines.push_str("end ended\n"),
        Turn::Aborted => lines.push_str("end aborted\n"),
        Turn::Trapped(trap) => {
            lines.push_str("end trapped ");
            push_trap(lines, trap);
            lines.push('\n');
        }
        Turn::Asks(_) | Turn::Spent => {}
    }
}

/// Appends a help, or that there is none.
pub fn push_help(lines: &mut TextSink, help: Option<Words<'_>>) {
    match help {
        Some(words) => push_words(lines, words),
        None => lines.push_str("there is no help"),
    }
    lines.push('\n');
}

/// Appends what is to be said of what a command has done, beside what is shown then.
pub fn push_happened(lines: &mut TextSink, happened: &Happened) {
    match happened {
        Happened::Shown
        | Happened::Moved
        | Happened::Edited(_, _)
        | Happened::Started(_)
        | Happened::Answered(_) => {}
        Happened::Refused(fault) => write!(lines, "refused {fault}\n"),
        Happened::NotStarted(fault) => write!(lines, "refused {fault}\n"),
        Happened::NoEntry => lines.push_str("there is no such entry\n"),
        Happened::Trapped(trap) => {
            push_fault(lines, *trap);
            lines.push('\n');
        }
        Happened::Unknown => lines.push_str("unknown here: ? shows the commands\n"),
    }
}
