//! The languages of texts: bars that open none, codes that are none, and languages that are there
//! twice, without words or with other choices.

use super::codes::{code_text, is_language};
use super::translated::{Translated, Translations};
use super::usual::Usual;
use super::variants::Variant;
use crate::kind::TextKind;
use crate::source::TokenIndex;
use crate::warning::Findings;
use std::collections::BTreeSet;

/// The first code of a text that breaks each rule.
#[derive(Default)]
struct Wrong<'r> {
    repeated: Option<&'r [u8]>,
    unknown: Option<&'r [u8]>,
    empty: Option<&'r [u8]>,
    /// Whether one of the languages has words: where none has, none is reported to be empty.
    has_words: bool,
}

impl<'r> Wrong<'r> {
    fn add(&mut self, variant: Variant<'r>, is_repeated: bool) {
        let code = Some(variant.code);
        let has_words = variant.words.iter().any(|byte| *byte != b' ');
        self.has_words |= has_words;
        if is_repeated {
            self.repeated = self.repeated.or(code);
            return;
        }
        if !is_language(variant.code) {
            self.unknown = self.unknown.or(code);
        }
        if !has_words {
            self.empty = self.empty.or(code);
        }
    }

    fn report(&self, at: TokenIndex, findings: &mut Findings<'_>) {
        let text = |code| code_text(code).to_owned();
        if let Some(code) = self.repeated {
            findings.add(at, TextKind::RepeatedLanguage(text(code)));
        }
        if let Some(code) = self.empty.filter(|_| self.has_words) {
            findings.add(at, TextKind::EmptyLanguage(text(code)));
        }
        if let Some(code) = self.unknown {
            findings.add(at, TextKind::UnknownLanguage(text(code)));
        }
    }
}

// The languages of a text by themselves.
fn check_text<'r>(text: Translated<'r>, codes: &mut Vec<&'r [u8]>, findings: &mut Findings<'_>) {
    let at = text.spoken.at;
    let mut wrong = Wrong::default();
    codes.clear();
    codes.extend(text.languages.iter().map(|one| one.code));
    codes.sort_unstable();
    // Few texts have a language twice: only there it matters which is the first.
    let has_repeated = codes.windows(2).any(|pair| pair.first() == pair.last());
    let mut seen = BTreeSet::new();
    for variant in text.languages {
        wrong.add(*variant, has_repeated && !seen.insert(variant.code));
    }
    if text.has_stray_bar {
        findings.add(at, TextKind::StrayBar);
    }
    wrong.report(at, findings);
}

// How many choices words have: semicolons part them.
fn count_choices(words: &[u8]) -> usize {
    words.split(|byte| *byte == b';').count()
}

// A language with another number of choices than the first one.
fn check_choices(text: Translated<'_>, findings: &mut Findings<'_>) {
    let Some((first, others)) = text.languages.split_first() else {
        return;
    };
    let at = text.spoken.at;
    let count = count_choices(first.words);
    let mut others = others.iter();
    if let Some(other) = others.find(|variant| count_choices(variant.words) != count) {
        findings.add(
            at,
            TextKind::UnevenChoices(
                count,
                code_text(first.code).to_owned(),
                count_choices(other.words),
                code_text(other.code).to_owned(),
            ),
        );
    }
}

/// Checks the languages of the texts of a description. A text without bars is in one language, of
/// which nothing is to be said.
pub(super) fn check_languages(texts: &Translations<'_>, findings: &mut Findings<'_>) {
    let mut usual = Usual::default();
    let mut codes = Vec::new();
    for text in texts.iter() {
        check_text(text, &mut codes, findings);
        usual.add(text.spoken.at, text.languages);
        if text.spoken.is_choices {
            check_choices(text, findings);
        }
    }
    usual.check_missing(findings);
}
