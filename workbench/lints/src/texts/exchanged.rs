//! Texts whose languages are exchanged, and sentences that are the same in two.

use super::translated::Pair;
use crate::kind::TextKind;
use crate::warning::Findings;
use crate::words::{Vocabulary, words_of};
use std::collections::HashMap;
use std::sync::LazyLock;

/// Words of German sentences that English ones have not.
const GERMAN: [&str; 16] = [
    "der", "das", "und", "ist", "nicht", "bitte", "wird", "oder", "eine", "einen", "wurde", "sind",
    "zum", "zur", "kein", "keine",
];

/// Words of English sentences that German ones have not.
const ENGLISH: [&str; 14] = [
    "the", "and", "is", "not", "please", "of", "or", "to", "are", "was", "with", "for", "no",
    "does",
];

/// The languages that these words are of.
static LANGUAGES: LazyLock<Vocabulary<Language>> = LazyLock::new(|| {
    let german = GERMAN.map(|word| (word, Language::German));
    let english = ENGLISH.map(|word| (word, Language::English));
    Vocabulary::of(german.into_iter().chain(english))
});

/// A language of which some words are known.
#[derive(Clone, Copy, PartialEq, Eq)]
enum Language {
    English,
    German,
}

/// How many words a sentence has that is translated.
const SENTENCE: usize = 4;

/// How often one language says what, and another one what. Nearly all descriptions have no two texts of which
/// each says in one language what the other says in the other: a text is counted where it may be one of such.
struct Counts<'r> {
    /// The keys of what texts say in German.
    german: Vec<u64>,
    texts: HashMap<(&'r str, &'r str), usize>,
}

// A number that is the same for the same words, and seldom for others.
fn key_of(text: &str) -> u64 {
    let bytes = text.as_bytes();
    let (Some(first), Some(last)) = (bytes.first_chunk(), bytes.last_chunk()) else {
        return bytes
            .iter()
            .fold(0, |key: u64, byte| key.rotate_left(8) ^ u64::from(*byte));
    };
    u64::from_le_bytes(*first) ^ u64::from_le_bytes(*last).rotate_left(20)
}

impl<'r> Counts<'r> {
    fn of(pairs: &[Pair<'r>]) -> Counts<'r> {
        let others = || pairs.iter().filter(|pair| pair.english != pair.german);
        let mut german: Vec<u64> = others().map(|pair| key_of(pair.german)).collect();
        german.sort_unstable();
        let may_be_turned = |pair: &&Pair<'r>| german.binary_search(&key_of(pair.english)).is_ok();
        let mut texts: HashMap<_, usize> = HashMap::new();
        for pair in others().filter(may_be_turned) {
            let count = texts.entry((pair.english, pair.german)).or_default();
            *count = count.saturating_add(1);
        }
        Counts { german, texts }
    }

    fn get(&self, english: &str, german: &str) -> usize {
        self.texts.get(&(english, german)).copied().unwrap_or(0)
    }

    // Whether more texts have the two languages of one the other way round.
    fn are_turned(&self, pair: &Pair<'_>) -> bool {
        pair.english != pair.german
            && self.german.binary_search(&key_of(pair.english)).is_ok()
            && self.get(pair.english, pair.german) < self.get(pair.german, pair.english)
    }
}

fn has_umlaut(text: &str) -> bool {
    // All of them begin with this byte.
    text.as_bytes().contains(&0xC3) && text.contains(['ä', 'ö', 'ü', 'ß', 'Ä', 'Ö', 'Ü'])
}

// Whether a text has words of one language.
fn has(text: &str, language: Language) -> bool {
    words_of(text).any(|word| LANGUAGES.get_exactly(word) == Some(language))
}

// Whether the words of a pair show that its languages are exchanged.
fn looks_exchanged(pair: &Pair<'_>) -> bool {
    let is_of = |text, one, other| has(text, one) && !has(text, other);
    let (english, german) = (Language::English, Language::German);
    if is_of(pair.english, german, english) && is_of(pair.german, english, german) {
        return true;
    }
    // A name may have such letters in each language.
    has_umlaut(pair.english)
        && !has_umlaut(pair.german)
        && pair.english.to_lowercase() != pair.german.to_lowercase()
        && !has(pair.english, english)
}

// Whether a text is the same sentence in both languages.
fn is_same_sentence(pair: &Pair<'_>) -> bool {
    pair.english == pair.german
        && SENTENCE <= words_of(pair.english).count()
        && words_of(pair.english).any(|word| LANGUAGES.get_exactly(word).is_some())
}

/// Checks the languages of the texts with each other.
pub(super) fn check_exchanged(pairs: &[Pair<'_>], findings: &mut Findings<'_>) {
    let counts = Counts::of(pairs);
    for pair in pairs {
        let at = pair.spoken.at;
        if counts.are_turned(pair) || looks_exchanged(pair) {
            findings.add(at, TextKind::ExchangedLanguages);
        } else if is_same_sentence(pair) {
            findings.add(at, TextKind::SameSentence);
        }
    }
}
