//! Texts on a line.
use std::prelude::v1::*;

use edd_loader::Text;
use edd_sinks::TextSink;
use edd_syntax::answer::Trap;
use legacy_screens::Words;

/// Appends a text with its control characters escaped.
pub fn push_escaped(line: &mut TextSink, text: &str) {
    for character in text.chars() {
        match character {
            '\n' => line.push_str("\\n"),
            '\t' => line.push_str("\\t"),
            '\0'..='\u{1f}' | '\u{7f}'..='\u{9f}' => {
                write!(line, "\\u{{{:x}}}", u32::from(character));
            }
            other => line.push(other),
        }
    }
}

/// Appends a text, or a key of the dictionary between brackets.
pub fn push_text(line: &mut TextSink, text: Text<'_>) {
    match text {
        Text::Words(words) => push_escaped(line, words),
        Text::Key(key) => {
            line.push('[');
            push_escaped(line, key);
            line.push(']');
        }
    }
}

/// Appends the word of a trap.
pub fn push_trap(line: &mut TextSink, trap: Trap) {
    line.push_str(match trap {
        Trap::DivZero => "DIV_ZERO",
        Trap::DivOverflow => "DIV_OVERFLOW",
        Trap::BadShift => "BAD_SHIFT",
        Trap::NoElement => "NO_ELEMENT",
    });
}

/// Appends `fault` and the word of a trap.
pub fn push_fault(line: &mut TextSink, trap: Trap) {
    line.push_str("fault ");
    push_trap(line, trap);
}

/// Appends words.
pub fn push_words(line: &mut TextSink, words: Words<'_>) {
    match words {
        Words::Text(text) => push_text(line, text),
        Words::Name(name) => push_escaped(line, name),
        Words::Fault(trap) => push_fault(line, trap),
    }
}
