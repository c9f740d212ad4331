//! The texts with codes of languages, and what each of them has for these: what several lints look at is read
//! once.

use super::spoken::Spoken;
use super::variants::{Variant, Variants};
use std::ops::Range;

/// A text with a bar.
struct Text<'t> {
    spoken: &'t Spoken<'t>,
    languages: Range<usize>,
    has_stray_bar: bool,
}

/// The texts with bars, with all of their languages.
pub(super) struct Translations<'t> {
    texts: Vec<Text<'t>>,
    languages: Vec<Variant<'t>>,
}

/// A text with what it has for each language.
#[derive(Clone, Copy)]
pub(super) struct Translated<'t> {
    pub(super) spoken: &'t Spoken<'t>,
    pub(super) languages: &'t [Variant<'t>],
    pub(super) has_stray_bar: bool,
}

impl<'t> Translations<'t> {
    pub(super) fn of(all: &'t [Spoken<'t>]) -> Translations<'t> {
        let mut translations = Translations {
            texts: Vec::new(),
            languages: Vec::new(),
        };
        for spoken in all.iter().filter(|spoken| spoken.raw.contains(&b'|')) {
            let start = translations.languages.len();
            let mut variants = Variants::of(&spoken.raw);
            translations.languages.extend(variants.by_ref());
            translations.texts.push(Text {
                spoken,
                languages: start..translations.languages.len(),
                has_stray_bar: variants.has_stray_bar,
            });
        }
        translations
    }

    /// The texts, in the order of the source.
    pub(super) fn iter(&self) -> impl Iterator<Item = Translated<'_>> {
        self.texts.iter().map(|text| Translated {
            spoken: text.spoken,
            languages: self
                .languages
                .get(text.languages.clone())
                .unwrap_or_default(),
            has_stray_bar: text.has_stray_bar,
        })
    }
}

impl<'t> Translations<'t> {
    /// All texts, with their languages where they have bars.
    pub(super) fn beside<'a>(
        &'a self,
        all: &'a [Spoken<'t>],
    ) -> impl Iterator<Item = (&'a Spoken<'t>, Option<Translated<'a>>)> {
        let mut translated = self.iter().peekable();
        all.iter().map(move |spoken| {
            let own = translated.next_if(|text| text.spoken.at == spoken.at);
            (spoken, own)
        })
    }
}

impl<'t> Translated<'t> {
    // What the text has for a language first.
    fn words(&self, code: &[u8]) -> Option<&'t str> {
        let mut languages = self.languages.iter();
        let variant = languages.find(|variant| variant.code == code)?;
        Some(str::from_utf8(variant.words).ok()?.trim())
    }
}

/// The English and the German of a text.
pub(super) struct Pair<'t> {
    pub(super) spoken: &'t Spoken<'t>,
    pub(super) english: &'t str,
    pub(super) german: &'t str,
}

impl<'t> Translations<'t> {
    /// The texts that have both languages.
    pub(super) fn pairs(&self) -> Vec<Pair<'_>> {
        let pairs = self.iter().filter_map(|text| {
            Some(Pair {
                spoken: text.spoken,
                english: text.words(b"en")?,
                german: text.words(b"de")?,
            })
        });
        pairs.collect()
    }
}
