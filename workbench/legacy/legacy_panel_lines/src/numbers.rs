//! Values on a line.
use std::prelude::v1::*;

use crate::texts::{push_fault, push_text};
use edd_loader::Text;
use edd_sinks::TextSink;
use legacy_screens::{Content, Format, Radix};
use std::alloc::AllocError;

// How many numbers a variable of so many octets tells apart.
fn modulus(size: u8) -> i64 {
    match size {
        1 => 256,
        2 => 65_536,
        3 => 16_777_216,
        _ => 4_294_967_296,
    }
}

fn push_digits(line: &mut TextSink, radix: Radix, number: i64) {
    match radix {
        Radix::Decimal | Radix::Unsigned => write!(line, "{number}"),
        Radix::Octal => write!(line, "{number:o}"),
        Radix::Hexadecimal => write!(line, "{number:x}"),
        Radix::UpperHexadecimal => write!(line, "{number:X}"),
    }
}

/// Appends a character so often.
pub fn push_often(line: &mut TextSink, character: char, count: usize) {
    for _ in 0..count {
        line.push(character);
    }
}

// Appends the digits of a number, filled up as its format says; zeros stand behind its sign.
fn push_filled(line: &mut TextSink, digits: &str, format: Format) {
    let missing = usize::from(format.width).saturating_sub(digits.len());
    if !format.zeros {
        push_often(line, ' ', missing);
        line.push_str(digits);
        return;
    }
    let unsigned = digits.strip_prefix('-');
    if unsigned.is_some() {
        line.push('-');
    }
    push_often(line, '0', missing);
    line.push_str(unsigned.unwrap_or(digits));
}

/// Appends a number of a variable of this size in a format.
pub fn push_number(line: &mut TextSink, number: i64, size: u8, format: Format) {
    let shown = if number < 0 && !matches!(format.radix, Radix::Decimal) {
        number.wrapping_add(modulus(size))
    } else {
        number
    };
    let mut digits = TextSink::new(line.alloc);
    push_digits(&mut digits, format.radix, shown);
    match digits.finish() {
        Ok(digits) => push_filled(line, &digits, format),
        Err(AllocError) => line.refuse(),
    }
}

// The number of the bits, and the labels of those that are set.
fn push_bits(line: &mut TextSink, number: i64, labels: &[Text<'_>]) {
    write!(line, "{number}");
    let mut between = " ";
    for label in labels {
        line.push_str(between);
        push_text(line, *label);
        between = ", ";
    }
}

/// Appends a value.
pub fn push_content(line: &mut TextSink, content: &Content<'_>) {
    match content {
        Content::Nothing => line.push('-'),
        Content::Number {
            number,
            size,
            format,
        } => push_number(line, *number, *size, *format),
        Content::Named { number, label } => match label {
            Some(label) => push_text(line, *label),
            None => write!(line, "{number}"),
        },
        Content::Bits { number, labels } => push_bits(line, *number, labels),
        Content::Fault(trap) => push_fault(line, *trap),
    }
}
