//! Languages that most texts have and some lack. Texts with codes of three digits are compared with
//! each other, and those without with each other.

use super::codes::{code_text, is_number, language_of};
use super::variants::Variant;
use crate::kind::TextKind;
use crate::source::TokenIndex;
use crate::warning::Findings;
use std::collections::BTreeMap;
use std::ops::Range;

/// A text of more than one language.
struct Manifold {
    at: TokenIndex,
    /// Where its languages are among all, sorted, each once.
    languages: Range<usize>,
    /// Whether one of its codes is a number.
    has_number: bool,
}

/// The texts of more than one language.
#[derive(Default)]
pub(super) struct Usual<'r> {
    texts: Vec<Manifold>,
    languages: Vec<&'r [u8]>,
    /// Those of the text that is added.
    own: Vec<&'r [u8]>,
}

impl<'r> Usual<'r> {
    /// Adds a text with these languages.
    pub(super) fn add(&mut self, at: TokenIndex, variants: &[Variant<'r>]) {
        let codes = || variants.iter().map(|variant| variant.code);
        self.own.clear();
        self.own.extend(codes().map(language_of));
        self.own.sort_unstable();
        self.own.dedup();
        if self.own.len() < 2 {
            return;
        }
        let start = self.languages.len();
        self.languages.extend_from_slice(&self.own);
        self.texts.push(Manifold {
            at,
            languages: start..self.languages.len(),
            has_number: codes().any(is_number),
        });
    }

    fn languages_of(&self, text: &Manifold) -> &[&'r [u8]] {
        self.languages
            .get(text.languages.clone())
            .unwrap_or_default()
    }

    // The languages that more than half of these texts have, and some text lacks.
    fn usual(&self, has_number: bool) -> Vec<&'r [u8]> {
        let texts = || {
            self.texts
                .iter()
                .filter(|text| text.has_number == has_number)
        };
        let mut counts: BTreeMap<&[u8], usize> = BTreeMap::new();
        for language in texts().flat_map(|text| self.languages_of(text)) {
            let count = counts.entry(language).or_default();
            *count = count.saturating_add(1);
        }
        let all = texts().count();
        let usual = counts
            .into_iter()
            .filter(|(_, count)| all / 2 < *count && *count < all);
        usual.map(|(language, _)| language).collect()
    }

    /// Warns of the texts that lack a language which most texts have.
    pub(super) fn check_missing(&self, findings: &mut Findings<'_>) {
        let (lettered, numbered) = (self.usual(false), self.usual(true));
        for text in &self.texts {
            let usual = if text.has_number {
                &numbered
            } else {
                &lettered
            };
            let own = self.languages_of(text);
            let is_missing = |one: &&&[u8]| own.binary_search(one).is_err();
            for language in usual.iter().filter(is_missing) {
                let code = code_text(language).to_owned();
                findings.add(text.at, TextKind::MissingLanguage(code));
            }
        }
    }
}
