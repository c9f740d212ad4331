//! How a number is shown, as DISPLAY_FORMAT and EDIT_FORMAT say it.
use std::prelude::v1::*;

/// In which signs a number is shown.
#[derive(Clone, Copy)]
pub enum Radix {
    Decimal,
    /// A negative number is shown as the unsigned one with the same bits, here and below.
    Unsigned,
    Octal,
    Hexadecimal,
    UpperHexadecimal,
}

#[derive(Clone, Copy)]
pub struct Format {
    pub radix: Radix,
    /// The least count of characters, up to 99.
    pub width: u8,
    /// Whether zeros fill it up, and not spaces.
    pub zeros: bool,
}

/// The format of a number that no format is given for.
pub const PLAIN: Format = Format {
    radix: Radix::Decimal,
    width: 0,
    zeros: false,
};

fn radix_of(letter: u8) -> Option<Radix> {
    match letter {
        b'd' => Some(Radix::Decimal),
        b'u' => Some(Radix::Unsigned),
        b'o' => Some(Radix::Octal),
        b'x' => Some(Radix::Hexadecimal),
        b'X' => Some(Radix::UpperHexadecimal),
        _ => None,
    }
}

// The number that at most two digits are.
fn width_of(digits: &[u8]) -> Option<u8> {
    if digits.len() > 2 {
        return None;
    }
    let mut width = 0u8;
    for digit in digits {
        if !digit.is_ascii_digit() {
            return None;
        }
        width = width
            .wrapping_mul(10)
            .wrapping_add(digit.wrapping_sub(b'0'));
    }
    Some(width)
}

/// The format that a text says: at most two digits and a letter. Every other text says none.
pub fn format_of(text: &str) -> Format {
    let Some((letter, digits)) = text.as_bytes().split_last() else {
        return PLAIN;
    };
    let (Some(radix), Some(width)) = (radix_of(*letter), width_of(digits)) else {
        return PLAIN;
    };
    Format {
        radix,
        width,
        zeros: digits.first().copied() == Some(b'0'),
    }
}
