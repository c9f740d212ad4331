//! Attributes of variables that contradict each other or say too little: enumerators, texts, classes
//! and formats.

use crate::context::Context;
use crate::instrument::Variable;
use crate::kind::{TextKind, VariableKind};
use crate::lists::{Listed, enumerators_of, values_in};
use crate::source::{TokenIndex, index};
use crate::texts::variants::Variants;
use crate::warning::Findings;
use edd_lexer::token::TokenKind;
use edd_syntax::cond::Cond;
use edd_syntax::item::{Attribute, Enumerator, TypePart};
use edd_syntax::numbers::TextAttribute;
use edd_syntax::reference::Target;
use edd_syntax::symbols::Symbol;
use edd_syntax::text::Text;
use edd_syntax::types::{Handling, VarType};
use std::collections::{HashMap, HashSet};

/// Words of enumerators that are there several times, since they name nothing.
const SPARE: [&str; 7] = [
    "reserved",
    "unused",
    "not used",
    "spare",
    "undefined",
    "unknown",
    "n/a",
];

/// How many characters the longest number has that a variable can hold, with room for signs.
const WIDEST: u32 = 20;

/// The inside of a text, where it is no key of the dictionary.
pub(crate) fn quoted(text: &Text) -> Option<&str> {
    match text {
        Text::Quoted(text) => Some(text.as_str()),
        Text::Key(_) => None,
    }
}

/// Whether a text says that what it is for is not used.
pub(crate) fn is_spare(text: &str) -> bool {
    let text = text.to_lowercase();
    SPARE.iter().any(|word| text.contains(word))
}

// Whether two enumerators say the same in a language.
fn has_same(enumerators: &[Listed<'_, Enumerator>]) -> bool {
    let texts = enumerators.iter().filter_map(|one| quoted(&one.value.text));
    let words = texts.flat_map(|text| Variants::of(text.as_bytes()));
    let mut words: Vec<_> = words
        .map(|one| (one.words.trim_ascii(), one.code))
        .collect();
    words.sort_unstable();
    words.windows(2).any(|pair| pair.first() == pair.last())
}

fn check_texts(enumerators: &[Listed<'_, Enumerator>], findings: &mut Findings<'_>) {
    for listed in enumerators {
        if quoted(&listed.value.text).is_some_and(str::is_empty) {
            findings.add(index(listed.value.at), TextKind::EmptyText);
        }
    }
    if has_same(enumerators) {
        check_repeated(enumerators, findings);
    }
}

fn check_repeated(enumerators: &[Listed<'_, Enumerator>], findings: &mut Findings<'_>) {
    let mut seen = HashMap::new();
    for listed in enumerators {
        let at = index(listed.value.at);
        let Some(text) = quoted(&listed.value.text).filter(|text| !text.is_empty()) else {
            continue;
        };
        // In one language alone two of them can't be told apart either.
        let mut earlier = None;
        for variant in Variants::of(text.as_bytes()) {
            let words = variant.words.trim_ascii();
            if words.is_empty() {
                continue;
            }
            // What is under no condition is in the lists of all branches.
            let always = seen.get(&(0, variant.code, words)).copied();
            let same = seen.insert((listed.list, variant.code, words), at);
            earlier = earlier.or(same.or(always).filter(|same| *same != at));
        }
        if let Some(earlier) = earlier.filter(|_| !is_spare(text)) {
            findings.add_beside(at, VariableKind::RepeatedText, earlier);
        }
    }
}

// A value that is under no condition and in a branch as well.
fn check_overlap(
    enumerators: &[Listed<'_, Enumerator>],
    context: &Context<'_>,
    findings: &mut Findings<'_>,
) {
    let number_at = |one: &Enumerator| crate::enumerators::number_at(one, context);
    let always = enumerators.iter().filter(|listed| listed.list == 0);
    let always: HashMap<_, _> = always
        .map(|listed| (listed.value.value, number_at(listed.value)))
        .collect();
    for listed in enumerators.iter().filter(|listed| listed.list != 0) {
        if let Some(earlier) = always.get(&listed.value.value) {
            let kind = VariableKind::RepeatedEnumerator(listed.value.value);
            findings.add_beside(number_at(listed.value), kind, *earlier);
        }
    }
}

// Whether a type has braces: behind its word, and its size if one is written.
fn has_braces(at: TokenIndex, context: &Context<'_>) -> bool {
    let is_open = |token: usize| {
        let kind = context.source.kind(at.saturating_add(token));
        kind == Some(TokenKind::Symbol(Symbol::OpenBrace))
    };
    is_open(2) || is_open(5)
}

fn check_enumerators(
    at: TokenIndex,
    parts: &[TypePart<Target>],
    variable: &Variable<'_>,
    context: &Context<'_>,
    findings: &mut Findings<'_>,
) {
    let enumerators = enumerators_of(parts);
    let name = || variable.name().to_owned();
    let is_enumerated = variable.kind == Some(VarType::Enumerated);
    match &*enumerators {
        [] if is_enumerated || has_braces(at, context) => {
            findings.add(at, VariableKind::NoEnumerators(name()));
        }
        [_] if is_enumerated => findings.add(at, VariableKind::SingleEnumerator(name())),
        _ => {}
    }
    check_texts(&enumerators, findings);
    check_overlap(&enumerators, context, findings);
}

fn check_format(at: TokenIndex, text: &Text, findings: &mut Findings<'_>) {
    let Some(text) = quoted(text) else {
        return;
    };
    let digits = text.split(|sign: char| !sign.is_ascii_digit());
    let widest = digits.filter_map(|digits| digits.parse::<u32>().ok()).max();
    if let Some(width) = widest.filter(|width| WIDEST < *width) {
        findings.add(at, VariableKind::WideFormat(width));
    }
}

/// The words of the classes of a variable.
pub(crate) fn classes_of<'i>(variable: &Variable<'i>) -> HashSet<&'i str> {
    let attributes = variable.item.attributes.iter();
    let words = attributes.filter_map(|attribute| match attribute {
        Attribute::Class(_, words) => Some(words),
        _ => None,
    });
    words.flatten().map(|word| word.as_str()).collect()
}

fn check_classes(at: TokenIndex, variable: &Variable<'_>, findings: &mut Findings<'_>) {
    let classes = classes_of(variable);
    if classes.contains("CONSTANT") && classes.contains("DYNAMIC") {
        findings.add(at, VariableKind::ConstantAndDynamic);
    }
    let is_write_only = |attribute: &Attribute<Target>| {
        matches!(
            attribute,
            Attribute::Handling(_, Cond::Value(Handling::Write))
        )
    };
    if classes.contains("DYNAMIC") && variable.item.attributes.iter().any(is_write_only) {
        findings.add(
            at,
            VariableKind::UnreadableDynamic(variable.name().to_owned()),
        );
    }
}

// A unit of bits.
fn check_unit(variable: &Variable<'_>, findings: &mut Findings<'_>) {
    if variable.kind != Some(VarType::BitEnumerated) {
        return;
    }
    for attribute in &variable.item.attributes {
        if let Attribute::OneText(at, TextAttribute::ConstantUnit, unit) = attribute {
            let mut units = values_in(unit).filter_map(|one| quoted(one.value));
            if units.any(|unit| !unit.trim().is_empty()) {
                findings.add(index(*at), VariableKind::UnitOfBits);
            }
        }
    }
}

/// Checks the attributes of a variable.
pub(crate) fn check_traits(
    variable: &Variable<'_>,
    context: &Context<'_>,
    findings: &mut Findings<'_>,
) {
    check_unit(variable, findings);
    for attribute in &variable.item.attributes {
        let at = index(attribute.at());
        match attribute {
            Attribute::Class(..) => check_classes(at, variable, findings),
            Attribute::TypeOf { parts, .. } => {
                if matches!(
                    variable.kind,
                    Some(VarType::Enumerated | VarType::BitEnumerated)
                ) {
                    check_enumerators(at, parts, variable, context, findings);
                }
                for part in parts {
                    if let TypePart::OneFormat { at, format, .. } = part {
                        for listed in values_in(format) {
                            check_format(index(*at), listed.value, findings);
                        }
                    }
                }
            }
            _ => {}
        }
    }
}

/// Checks whether the LABEL of an item is empty.
pub(crate) fn check_label(attribute: &Attribute<Target>, findings: &mut Findings<'_>) {
    if let Attribute::OneText(at, TextAttribute::Label, label) = attribute {
        let is_empty = |text: &Text| {
            quoted(text).is_some_and(|text| {
                Variants::of(text.as_bytes()).all(|variant| variant.words.trim_ascii().is_empty())
            })
        };
        if values_in(label).any(|listed| is_empty(listed.value)) {
            findings.add(index(*at), TextKind::EmptyText);
        }
    }
}
