//! Which number a text means that a user has typed.
use std::prelude::v1::*;

use crate::format::Radix;
use crate::sheets::{Choice, choices_of, edit_format};
use crate::words::Page;
use edd_loader::Text;
use edd_machine::Values;
use edd_panel::{Field, text_of_choices, value_of};
use edd_syntax::numbers::{Attr, StrNo};
use edd_syntax::types::VarType;
use std::alloc::{AllocError, Global};

// A number to a base, without a plus.
fn number_to(text: &str, base: u32) -> Option<i64> {
    if text.starts_with('+') {
        return None;
    }
    i64::from_str_radix(text, base).ok()
}

/// A decimal number.
pub fn decimal(text: &str) -> Option<i64> {
    number_to(text, 10)
}

// A number as it is entered in a radix, or to the base 16 after `0x`.
fn number_in(text: &str, radix: Radix) -> Option<i64> {
    if let Some(digits) = text.strip_prefix("0x") {
        return number_to(digits, 16);
    }
    match radix {
        Radix::Decimal | Radix::Unsigned => number_to(text, 10),
        Radix::Octal => number_to(text, 8),
        Radix::Hexadecimal | Radix::UpperHexadecimal => number_to(text, 16),
    }
}

// The value of the choice that has this label.
fn labelled(choices: &[Choice<'_>], text: &str) -> Option<i64> {
    for choice in choices {
        if let Some(Text::Words(label) | Text::Key(label)) = choice.label
            && label == text
        {
            return Some(choice.value);
        }
    }
    None
}

// A bit by its label or number.
fn bit_meant(choices: &[Choice<'_>], radix: Radix, text: &str) -> Option<i64> {
    match labelled(choices, text) {
        Some(bit) => Some(bit),
        None => number_in(text, radix),
    }
}

// The bits that a text makes of those that a BIT_ENUMERATED has: `+` sets one, `-` clears one, a
// label changes one, and a number stands for all.
fn bits_meant(choices: &[Choice<'_>], radix: Radix, old: i64, text: &str) -> Option<i64> {
    if let Some(bit) = labelled(choices, text) {
        return Some(old ^ bit);
    }
    if let Some(set) = text.strip_prefix('+') {
        return Some(old | bit_meant(choices, radix, set.trim())?);
    }
    if let Some(cleared) = text.strip_prefix('-') {
        return Some(old & !bit_meant(choices, radix, cleared.trim())?);
    }
    number_in(text, radix)
}

/// The value that a text means for a variable: a label, or a number as its EDIT_FORMAT has it.
pub fn value_meant(
    alloc: Global,
    page: &Page<'_, '_>,
    values: &Values,
    field: Field,
    text: &str,
) -> Result<Option<i64>, AllocError> {
    let Some(kind) = page.image.variable(field.variable) else {
        return Ok(None);
    };
    let format = edit_format(alloc, page, values, field)?;
    let enumerators = page.read(alloc, values, field.variable, Attr::Enumerators)?;
    let choices = choices_of(alloc, page, &enumerators)?;
    let old = value_of(values, field.variable);
    if kind.var_type == VarType::BitEnumerated {
        return Ok(bits_meant(&choices, format.radix, old, text));
    }
    Ok(bit_meant(&choices, format.radix, text))
}

/// The choice that a text means, counted from 1: its number, or its text.
pub fn choice_meant(page: &Page<'_, '_>, choices: StrNo, text: &str) -> Option<i64> {
    let mut count = 0i64;
    for choice in text_of_choices(page.image, choices, page.language).split(';') {
        count = count.saturating_add(1);
        if choice.trim() == text {
            return Some(count);
        }
    }
    decimal(text)
}
