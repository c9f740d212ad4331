//! The lines of a variable that is edited.
use std::prelude::v1::*;

use crate::numbers::{push_content, push_number};
use crate::screens::push_unit;
use crate::texts::{push_fault, push_text, push_words};
use edd_image::VarKind;
use edd_sinks::TextSink;
use edd_syntax::types::VarType;
use legacy_screens::{Bound, Choice, Content, Sheet};

fn type_word(of: VarType) -> &'static str {
    match of {
        VarType::Integer => "INTEGER",
        VarType::UnsignedInteger => "UNSIGNED_INTEGER",
        VarType::Enumerated => "ENUMERATED",
        VarType::BitEnumerated => "BIT_ENUMERATED",
    }
}

/// Appends the type and the size in octets.
pub fn push_kind(line: &mut TextSink, kind: VarKind) {
    write!(line, "{} {}", type_word(kind.var_type), kind.size);
}

// A limit on a line of its own, where there is one.
fn push_bound(lines: &mut TextSink, word: &str, bound: Bound, kind: VarKind, sheet: &Sheet<'_>) {
    match bound {
        Bound::None => return,
        Bound::Number(number) => {
            lines.push_str(word);
            push_number(lines, number, kind.size, sheet.format);
        }
        Bound::Fault(trap) => {
            lines.push_str(word);
            push_fault(lines, trap);
        }
    }
    lines.push('\n');
}

// Whether all bits of a choice are set, for a BIT_ENUMERATED.
fn mark_of(content: &Content<'_>, choice: &Choice<'_>) -> &'static str {
    match content {
        Content::Bits { number, .. } if *number & choice.value == choice.value => " on ",
        Content::Bits { .. } => " off",
        _ => "",
    }
}

/// Appends the line of a choice.
pub fn push_choice(lines: &mut TextSink, content: &Content<'_>, choice: &Choice<'_>) {
    write!(lines, "  {}{}", choice.value, mark_of(content, choice));
    if let Some(label) = choice.label {
        lines.push(' ');
        push_text(lines, label);
    }
    if let Some(help) = choice.help {
        lines.push_str(" - ");
        push_text(lines, help);
    }
    lines.push('\n');
}

/// Appends the lines of a variable that are above its choices: its label, its type and its value, and
/// the limits of a number.
pub fn push_value(lines: &mut TextSink, sheet: &Sheet<'_>) {
    push_words(lines, sheet.label);
    if let Some(kind) = sheet.kind {
        lines.push_str("  ");
        push_kind(lines, kind);
    }
    lines.push_str("\nvalue ");
    push_content(lines, &sheet.content);
    push_unit(lines, sheet.unit);
    lines.push('\n');
    if let Some(kind) = sheet.kind
        && matches!(kind.var_type, VarType::Integer | VarType::UnsignedInteger)
    {
        push_bound(lines, "at least ", sheet.lowest, kind, sheet);
        push_bound(lines, "at most ", sheet.highest, kind, sheet);
    }
}

/// Appends the lines of a variable that are below its choices.
pub fn push_faults(lines: &mut TextSink, sheet: &Sheet<'_>) {
    if let Some(trap) = sheet.trap {
        lines.push_str("  ");
        push_fault(lines, trap);
        lines.push('\n');
    }
    if let Some(fault) = sheet.refused {
        write!(lines, "can't be set: {fault}\n");
    }
}

/// Appends the lines of a variable that is edited.
pub fn push_sheet(lines: &mut TextSink, sheet: &Sheet<'_>) {
    push_value(lines, sheet);
    for choice in &sheet.choices {
        push_choice(lines, &sheet.content, choice);
    }
    push_faults(lines, sheet);
}
