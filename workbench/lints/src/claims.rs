//! Ranges and defaults that the texts of a variable name, and that are others than those of its type.

use crate::instrument::Variable;
use crate::kind::VariableKind;
use crate::lists::values_in;
use crate::source::index;
use crate::texts::variants::Variants;
use crate::traits::quoted;
use crate::types::number_parts;
use crate::units::Unit;
use crate::warning::Findings;
use crate::words::Phrases;
use edd_syntax::item::Attribute;
use edd_syntax::numbers::{NumberOption, TextAttribute};
use edd_syntax::types::VarType;
use std::sync::LazyLock;

/// What stands between the ends of a range.
const BETWEEN: [&str; 8] = [" to ", " bis ", "...", "..", "-", "–", " - ", " – "];

/// Words before a default.
const DEFAULTS: [&str; 6] = [
    "default ",
    "default: ",
    "default is ",
    "standard ",
    "vorgabe ",
    "vorgabe: ",
];

/// What a text with one of them has, whether it begins with a capital or not.
const HINTS: [&str; 3] = ["efault", "tandard", "orgabe"];

static HINTED: LazyLock<Phrases> = LazyLock::new(|| Phrases::of(&HINTS));

/// A range that a text names.
struct Named {
    low: i64,
    high: i64,
    /// Whether the text has nothing else.
    is_alone: bool,
}

// The number with which a text begins, and what is behind it. One with a fraction is none.
fn number_first(text: &str) -> Option<(i64, &str)> {
    let unsigned = text.strip_prefix(['-', '−']).unwrap_or(text);
    let digits = unsigned.find(|sign: char| !sign.is_ascii_digit());
    let (digits, rest) = unsigned.split_at_checked(digits.unwrap_or(unsigned.len()))?;
    let number: i64 = digits.parse().ok()?;
    let mut next = rest.chars();
    let is_cut = matches!(next.next(), Some('.' | ','))
        && next.next().is_some_and(|sign| sign.is_ascii_digit());
    let is_negative = unsigned.len() < text.len();
    let number = if is_negative {
        number.checked_neg()?
    } else {
        number
    };
    (!is_cut).then_some((number, rest))
}

// Whether what stands behind a range ends it: nothing, a sign, or the unit of the variable.
fn ends_range(rest: &str, unit: Option<Unit>) -> bool {
    let rest = rest.trim_start();
    let end = rest.find([' ', '.', ',', ';', ')', ']', '?']);
    let (word, behind) = rest
        .split_at_checked(end.unwrap_or(rest.len()))
        .unwrap_or((rest, ""));
    let is_own = word.is_empty() || unit.is_some() && Unit::of(word) == unit;
    is_own && !behind.starts_with(' ')
}

// A range that begins at a place of a text.
fn range_at(text: &str, unit: Option<Unit>) -> Option<(i64, i64, &str)> {
    let (low, rest) = number_first(text)?;
    let (high, rest) = BETWEEN
        .iter()
        .find_map(|sign| number_first(rest.strip_prefix(sign)?))?;
    (low < high && ends_range(rest, unit)).then_some((low, high, rest))
}

// Whether a text has two numbers, as each range has.
fn has_two_numbers(text: &str) -> bool {
    let mut runs = text.as_bytes().split(|byte| !byte.is_ascii_digit());
    runs.by_ref().any(|run| !run.is_empty()) && runs.any(|run| !run.is_empty())
}

// The one range that a text names.
fn range_in(text: &str, unit: Option<Unit>) -> Option<Named> {
    if !has_two_numbers(text) {
        return None;
    }
    let mut found = None;
    let mut before = b' ';
    let mut passed = 0_usize;
    for (at, sign) in text.bytes().enumerate() {
        let begins = sign.is_ascii_digit() || sign == b'-';
        let is_apart = matches!(before, b' ' | b'(' | b'[');
        if begins && is_apart && passed <= at {
            let rest = text.get(at..)?;
            if let Some((low, high, behind)) = range_at(rest, unit) {
                if found.is_some() {
                    return None;
                }
                passed = text.len().saturating_sub(behind.len());
                let is_alone = at == 0 && ends_text(behind, unit);
                found = Some(Named {
                    low,
                    high,
                    is_alone,
                });
            }
        }
        before = sign;
    }
    found
}

// Whether nothing but a unit is behind a range.
fn ends_text(behind: &str, unit: Option<Unit>) -> bool {
    let behind = behind.trim().trim_end_matches('.');
    behind.is_empty() || unit.is_some() && Unit::of(behind) == unit
}

// Whether numbers are others by powers of ten, as where a value has places behind its point.
fn is_scaled(named: [i64; 2], own: [i64; 2]) -> bool {
    let mut factor = 1_i64;
    (0..6).any(|_| {
        factor = factor.saturating_mul(10);
        let times = |numbers: [i64; 2]| numbers.map(|number| number.saturating_mul(factor));
        times(named) == own || times(own) == named
    })
}

fn constant(variable: &Variable<'_>, which: NumberOption) -> Option<i64> {
    let mut parts = number_parts(variable.parts()).filter(|part| part.which == which);
    parts.next()?.number()
}

// The constant limits of a variable.
fn limits_of(variable: &Variable<'_>) -> Option<(i64, i64)> {
    let greatest = constant(variable, NumberOption::MaxValue)?;
    let least = match constant(variable, NumberOption::MinValue) {
        Some(least) => least,
        None if variable.kind == Some(VarType::UnsignedInteger) => 0,
        None => return None,
    };
    Some((least, greatest))
}

fn check_range(text: &str, limits: (i64, i64), unit: Option<Unit>) -> Option<VariableKind> {
    let named = range_in(text, unit)?;
    let (least, greatest) = limits;
    let (low, high) = (named.low, named.high);
    // A part of the limits may be what is usual.
    let is_beyond = low < least || greatest < high;
    let is_other = (low, high) != (least, greatest) && (named.is_alone || is_beyond);
    let is_told = is_other && !is_scaled([low, high], [least, greatest]);
    is_told.then_some(VariableKind::NamedRange(low, high, least, greatest))
}

fn check_default(text: &str, default: i64) -> Option<VariableKind> {
    let may_name = HINTED.find(text).is_some();
    if !may_name || !HINTS.iter().any(|hint| text.contains(hint)) {
        return None;
    }
    let text = text.to_lowercase();
    let named = DEFAULTS.iter().find_map(|word| {
        let (_, behind) = text.split_once(word)?;
        number_first(behind).map(|(number, _)| number)
    })?;
    let is_told = named != default && !is_scaled([named, 0], [default, 0]);
    is_told.then_some(VariableKind::NamedDefault(named, default))
}

/// What a text says of the limits of a variable that it is for, where that is wrong.
pub(crate) fn wrong_claim(text: &str, variable: &Variable<'_>) -> Option<VariableKind> {
    let is_number = matches!(
        variable.kind,
        Some(VarType::Integer | VarType::UnsignedInteger)
    );
    if !is_number || !text.bytes().any(|sign| sign.is_ascii_digit()) {
        return None;
    }
    let limits = limits_of(variable);
    let default = constant(variable, NumberOption::DefaultValue);
    if limits.is_none() && default.is_none() {
        return None;
    }
    let unit = variable.unit();
    Variants::of(text.as_bytes()).find_map(|variant| {
        let words = str::from_utf8(variant.words).ok()?;
        let range = limits.and_then(|limits| check_range(words, limits, unit));
        range.or_else(|| check_default(words, default?))
    })
}

/// Names of seconds and minutes, with how many seconds each has.
const TIMES: [(&str, i64); 10] = [
    ("seconds", 1),
    ("second", 1),
    ("sec", 1),
    ("s", 1),
    ("sekunden", 1),
    ("sekunde", 1),
    ("minutes", 60),
    ("minute", 60),
    ("min", 60),
    ("minuten", 60),
];

/// How many seconds a text names, where it names one time.
pub(crate) fn seconds_in(text: &str) -> Option<i64> {
    let first = Variants::of(text.as_bytes()).next()?;
    let words = str::from_utf8(first.words).ok()?.to_lowercase();
    let words: Vec<_> = words
        .split(|sign: char| !sign.is_alphanumeric())
        .filter(|word| !word.is_empty())
        .collect();
    let mut found = words.windows(2).filter_map(|pair| {
        let [number, unit] = pair else {
            return None;
        };
        let number: i64 = number.parse().ok()?;
        let (_, seconds) = TIMES.iter().find(|(name, _)| name == unit)?;
        number.checked_mul(*seconds)
    });
    let seconds = found.next()?;
    found.next().is_none().then_some(seconds)
}

/// Checks what the LABEL and the HELP of a variable say of its limits.
pub(crate) fn check_claims(variable: &Variable<'_>, findings: &mut Findings<'_>) {
    for attribute in &variable.item.attributes {
        if let Attribute::OneText(at, TextAttribute::Label | TextAttribute::Help, text) = attribute
        {
            let mut texts = values_in(text).filter_map(|one| quoted(one.value));
            if let Some(kind) = texts.find_map(|text| wrong_claim(text, variable)) {
                findings.add(index(*at), kind);
            }
        }
    }
}
