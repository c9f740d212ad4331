//! Texts in one language where most others have two, braces around the name of an item, and escapes
//! of escapes.

use super::codes::code_text;
use super::spoken::Spoken;
use super::translated::{Translated, Translations};
use crate::context::Context;
use crate::kind::TextKind;
use crate::units::Unit;
use crate::warning::Findings;
use crate::words::Vocabulary;
use edd_syntax::symbols::Keyword;
use std::sync::LazyLock;

/// How many letters, of which all but the first are small, make a word that is to be translated.
const WORD: usize = 4;

/// How many texts of two languages there have to be.
const FEWEST: usize = 3;

/// How many bytes the name of a unit has at most.
const LONGEST_UNIT: usize = 24;

/// Words that several languages write alike, so that one text does for them.
const SHARED: [&str; 29] = [
    "alarm",
    "code",
    "data",
    "detail",
    "diagnose",
    "display",
    "filter",
    "firmware",
    "format",
    "hardware",
    "information",
    "linear",
    "maximum",
    "minimum",
    "monitor",
    "name",
    "normal",
    "offline",
    "offset",
    "online",
    "position",
    "reset",
    "sensor",
    "software",
    "start",
    "status",
    "stop",
    "test",
    "version",
];

static KNOWN: LazyLock<Vocabulary<()>> =
    LazyLock::new(|| Vocabulary::of(SHARED.map(|word| (word, ()))));

// Whether a text has a word of some letters, and not only a unit, a number or an abbreviation.
fn has_word(words: &[u8]) -> bool {
    let mut runs = words.split(|byte| !byte.is_ascii_alphabetic());
    runs.any(|run| {
        let small = run.iter().filter(|byte| byte.is_ascii_lowercase()).count();
        let is_word = WORD <= run.len() && run.len() <= small.saturating_add(1);
        is_word && !str::from_utf8(run).is_ok_and(|run| KNOWN.get(run).is_some())
    })
}

// Whether a text is the sign or the name of a unit.
fn is_unit(words: &[u8]) -> bool {
    let is_short = words.trim_ascii().len() <= LONGEST_UNIT;
    is_short && str::from_utf8(words).is_ok_and(|words| Unit::of(words.trim()).is_some())
}

fn is_for_readers(spoken: &Spoken<'_>) -> bool {
    matches!(
        spoken.section,
        Some(
            Keyword::Label
                | Keyword::Help
                | Keyword::Type
                | Keyword::ResponseCodes
                | Keyword::Members
                | Keyword::Elements
                | Keyword::Definition
        )
    )
}

// The code of the language of a text that is to be translated, where it is in one.
fn untranslated<'t>(
    spoken: &'t Spoken<'_>,
    translated: Option<Translated<'t>>,
) -> Option<&'t [u8]> {
    let says_language = spoken.raw.starts_with(b"|");
    if !says_language && !is_for_readers(spoken) {
        return None;
    }
    let (code, words) = match translated {
        None => (b"en".as_slice(), &*spoken.raw),
        Some(text) => match text.languages {
            [single] => (single.code, single.words),
            _ => return None,
        },
    };
    let is_told = says_language || !is_unit(words);
    (has_word(words) && is_told).then_some(code)
}

// Whether three of four texts are translated.
fn are_translated(texts: &[Spoken<'_>], translations: &Translations<'_>) -> bool {
    let mut all = 0_usize;
    let mut translated = 0_usize;
    for (spoken, text) in translations.beside(texts) {
        if is_for_readers(spoken) && has_word(&spoken.raw) && !is_unit(&spoken.raw) {
            let has_more = text.is_some_and(|text| 1 < text.languages.len());
            all = all.saturating_add(1);
            translated = translated.saturating_add(usize::from(has_more));
        }
    }
    FEWEST <= translated && all.saturating_mul(3) <= translated.saturating_mul(4)
}

/// Warns of texts in one language, where nearly all others have more.
pub(super) fn check_translations(
    texts: &[Spoken<'_>],
    translations: &Translations<'_>,
    findings: &mut Findings<'_>,
) {
    let all = translations.beside(texts);
    let suspects = all.filter_map(|(one, text)| Some((one.at, untranslated(one, text)?)));
    let suspects: Vec<_> = suspects.collect();
    if suspects.is_empty() || !are_translated(texts, translations) {
        return;
    }
    for (at, code) in suspects {
        findings.add(at, TextKind::Untranslated(code_text(code).to_owned()));
    }
}

// The name of an item in braces, as other languages replace it.
fn braced_item(raw: &[u8], context: &Context<'_>) -> Option<String> {
    if !raw.contains(&b'{') {
        return None;
    }
    let mut parts = raw.split(|byte| *byte == b'{');
    parts.next()?;
    let names = parts.filter_map(|part| part.split(|byte| *byte == b'}').next());
    let mut names = names.filter_map(|name| str::from_utf8(name).ok());
    let name = names.find(|name| context.instrument.has_name(name))?;
    Some(name.to_owned())
}

/// Checks what stands in texts for something else.
pub(super) fn check_insides(
    texts: &[Spoken<'_>],
    context: &Context<'_>,
    findings: &mut Findings<'_>,
) {
    for spoken in texts {
        let is_plain = |_: &String| !spoken.raw.contains(&b'%');
        if let Some(name) = braced_item(&spoken.raw, context).filter(is_plain) {
            findings.add(spoken.at, TextKind::BracedItem(name));
        }
        let mut escapes = spoken.raw.windows(3);
        if spoken.raw.contains(&b'\\') && escapes.any(|window| window == br"\\n") {
            findings.add(spoken.at, TextKind::EscapedEscape);
        }
    }
}
