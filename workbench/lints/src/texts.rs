//! Texts and comments.

mod codes;
mod comments;
mod contents;
mod exchanged;
mod languages;
mod opposites;
mod signs;
mod spoken;
mod translated;
mod translations;
mod usual;
pub(crate) mod variants;

use crate::context::Context;
use crate::warning::Findings;
use contents::check_contents;
use exchanged::check_exchanged;
use languages::check_languages;
use opposites::check_opposites;
use signs::check_signs;
use spoken::spoken_in;
use translated::Translations;
use translations::{check_insides, check_translations};

/// Checks all texts.
pub(crate) fn check_texts(context: &Context<'_>, findings: &mut Findings<'_>) {
    let texts = spoken_in(context.source);
    let translations = Translations::of(&texts);
    check_languages(&translations, findings);
    check_signs(&texts, findings);
    check_contents(&texts, &translations, findings);
    let pairs = translations.pairs();
    check_exchanged(&pairs, findings);
    check_opposites(&pairs, findings);
    check_translations(&texts, &translations, findings);
    check_insides(&texts, context, findings);
}

/// Checks all comments.
pub(crate) fn check_comments(context: &Context<'_>, findings: &mut Findings<'_>) {
    comments::check_comments(context.source, findings);
}
