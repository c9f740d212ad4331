//! What the languages of a text say: numbers that differ, and escapes where a path is meant.

use super::codes::code_text;
use super::spoken::Spoken;
use super::translated::{Translated, Translations};
use super::variants::{Variant, Variants};
use crate::kind::TextKind;
use crate::warning::Findings;
use std::collections::HashSet;

/// Units in which one language has other numbers than another.
const CONVERTED: [&str; 8] = [
    "°F", "inch", "psi", "feet", "gallon", " am", " pm", "o'clock",
];

/// How many letters a part of a path has at least.
const SHORTEST: usize = 2;

// The numbers in words, in their order.
fn runs_in(words: &[u8]) -> impl Iterator<Item = &[u8]> {
    let runs = words.split(|byte| !byte.is_ascii_digit());
    runs.filter(|run| !run.is_empty())
}

// The numbers in words, from the least text to the greatest.
fn numbers_in(words: &[u8]) -> Vec<&[u8]> {
    let mut numbers: Vec<_> = runs_in(words).collect();
    numbers.sort_unstable();
    numbers
}

// Whether words have as many numbers as others, and not the same.
fn are_uneven(one: &[u8], other: &[u8]) -> bool {
    // Most have the same in the same order.
    if runs_in(one).eq(runs_in(other)) {
        return false;
    }
    let (numbers, others) = (numbers_in(one), numbers_in(other));
    others.len() == numbers.len() && others != numbers
}

fn is_converted(raw: &[u8]) -> bool {
    str::from_utf8(raw).is_ok_and(|text| CONVERTED.iter().any(|unit| text.contains(unit)))
}

// A number of the first language and one of another, where these have as many and not the same.
fn uneven_numbers<'t>(text: Translated<'t>) -> Option<(Variant<'t>, Variant<'t>)> {
    let (first, others) = text.languages.split_first()?;
    if !first.words.iter().any(u8::is_ascii_digit) {
        return None;
    }
    let mut others = others.iter();
    let other = others.find(|other| are_uneven(first.words, other.words))?;
    (!is_converted(&text.spoken.raw)).then_some((*first, *other))
}

// The numbers of one of two variants that the other one lacks, as text.
fn text_of(one: Variant<'_>, other: Variant<'_>) -> String {
    let others = numbers_in(other.words);
    let own = numbers_in(one.words).into_iter();
    let own = own.filter(|number| !others.contains(number));
    let own: Vec<_> = own
        .filter_map(|number| str::from_utf8(number).ok())
        .collect();
    own.join(", ")
}

// Whether an escape in a word divides letters: those before it, and small ones behind.
fn divides(before: &[u8], behind: &[u8]) -> bool {
    let letters = behind.iter().take_while(|byte| byte.is_ascii_lowercase());
    let is_divided = before.last().is_some_and(u8::is_ascii_alphanumeric);
    is_divided && SHORTEST <= before.len() && SHORTEST <= letters.count()
}

// Whether the parts of a word beside an escape are those of a path: a drive, or the ending of a file.
fn looks_like_path(before: &[u8], behind: &[u8]) -> bool {
    let has_drive = matches!(before, [b'A'..=b'Z' | b'a'..=b'z', b':', ..]);
    let mut parts = behind.rsplit(|byte| *byte == b'.');
    let ending = parts.next().unwrap_or_default();
    let has_ending = parts.next().is_some_and(|stem| !stem.is_empty())
        && (2..=4).contains(&ending.len())
        && ending.iter().all(u8::is_ascii_lowercase);
    has_drive || has_ending
}

// The words of a text that `\n` or `\t` divides, each with its two parts.
fn divided_words(words: &[u8]) -> impl Iterator<Item = (&[u8], &[u8], &[u8])> {
    let all = words.split(|byte| *byte == b' ');
    all.filter_map(|word| {
        let at = word
            .windows(2)
            .position(|pair| matches!(pair, br"\n" | br"\t"))?;
        let (before, rest) = word.split_at_checked(at)?;
        Some((word, before, rest.get(2..)?))
    })
}

// Whether an escape stands where a path has a backslash: two languages have the same word around it, or
// its parts are those of a path.
fn has_path(raw: &[u8]) -> bool {
    let mut seen = HashSet::new();
    Variants::of(raw).any(|variant| {
        let found = divided_words(variant.words).any(|(word, before, behind)| {
            let has_drive = matches!(before, [_, b':']) || looks_like_path(before, behind);
            has_drive || (divides(before, behind) && seen.contains(word))
        });
        seen.extend(divided_words(variant.words).map(|(word, ..)| word));
        found
    })
}

/// Checks what the texts of a description say.
pub(super) fn check_contents(
    texts: &[Spoken<'_>],
    translations: &Translations<'_>,
    findings: &mut Findings<'_>,
) {
    for text in translations.iter() {
        if let Some((first, other)) = uneven_numbers(text) {
            let kind = TextKind::UnevenNumbers(
                text_of(first, other),
                code_text(first.code).to_owned(),
                text_of(other, first),
                code_text(other.code).to_owned(),
            );
            findings.add(text.spoken.at, kind);
        }
    }
    for spoken in texts {
        if spoken.raw.contains(&b'\\') && has_path(&spoken.raw) {
            findings.add(spoken.at, TextKind::EscapedPath);
        }
    }
}
