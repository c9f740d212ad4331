//! The lines of a screen.
use std::prelude::v1::*;

use crate::numbers::{push_content, push_often};
use crate::texts::{push_fault, push_words};
use edd_sinks::TextSink;
use legacy_screens::{Leads, Row, Screen, Words};
use std::alloc::{AllocError, Global};
use unicode_width::UnicodeWidthStr;

/// The widest column of labels; what is wider is followed by its value directly.
const WIDEST: usize = 40;

// The label of an entry as text.
fn label_text(alloc: Global, label: Words<'_>) -> Result<String, AllocError> {
    let mut text = TextSink::new(alloc);
    push_words(&mut text, label);
    text.finish()
}

// The width of the column of labels.
fn width_of(alloc: Global, rows: &[Row<'_>]) -> Result<usize, AllocError> {
    let mut width = 0;
    for row in rows {
        if let Row::Entry { label, .. } = row {
            let text = label_text(alloc, *label)?;
            width = text.as_str().width().max(width);
        }
    }
    Ok(width.min(WIDEST))
}

// What is behind the label of an entry.
fn push_leads(line: &mut TextSink, leads: &Leads<'_>) {
    match leads {
        Leads::Variable {
            content,
            unit,
            read_only,
        } => {
            push_content(line, content);
            push_unit(line, *unit);
            if *read_only {
                line.push_str(" (read only)");
            }
        }
        Leads::Menu => line.push_str("(menu)"),
        Leads::Method => line.push_str("(method)"),
        Leads::Fault(trap) => push_fault(line, *trap),
    }
}

/// Appends the unit behind a value, if it has one.
pub fn push_unit(line: &mut TextSink, unit: Option<Words<'_>>) {
    if let Some(unit) = unit {
        line.push(' ');
        push_words(line, unit);
    }
}

// A label in a column of this width.
fn push_label(line: &mut TextSink, label: Words<'_>, width: usize) {
    match label_text(line.alloc, label) {
        Ok(text) => {
            line.push_str(&text);
            push_often(line, ' ', width.saturating_sub(text.as_str().width()));
        }
        Err(AllocError) => line.refuse(),
    }
}

/// Appends the lines of entries and texts, one for each: of an entry its number, its label and what
/// is behind it, in columns.
pub fn push_rows(lines: &mut TextSink, rows: &[Row<'_>]) {
    let Ok(width) = width_of(lines.alloc, rows) else {
        lines.refuse();
        return;
    };
    let mut number = 0u32;
    for row in rows {
        match row {
            Row::Text(words) => {
                lines.push_str("    ");
                push_words(lines, *words);
            }
            Row::Entry { label, leads, .. } => {
                number = number.saturating_add(1);
                write!(lines, "{number:>3} ");
                push_label(lines, *label, width);
                lines.push_str("  ");
                push_leads(lines, leads);
            }
        }
        lines.push('\n');
    }
}

/// Appends the lines of a screen that are above its rows.
pub fn push_title(lines: &mut TextSink, screen: &Screen<'_>) {
    match screen.title {
        Some(title) => push_words(lines, title),
        None => lines.push_str("Top"),
    }
    lines.push('\n');
    if let Some(trap) = screen.trap {
        lines.push_str("    ");
        push_fault(lines, trap);
        lines.push('\n');
    } else if screen.rows.is_empty() {
        lines.push_str("    nothing is here\n");
    }
}

/// Appends the lines of a screen.
pub fn push_screen(lines: &mut TextSink, screen: &Screen<'_>) {
    push_title(lines, screen);
    push_rows(lines, &screen.rows);
}
