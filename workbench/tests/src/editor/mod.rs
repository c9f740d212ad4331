//! What an editor asks: conversations with the language server, and queries on texts.
//!
//! - `@utf-8 NAME` and `@utf-16 NAME` begin a conversation that is initialized, `@- NAME` one that is not.
//! - `@queries NAME` has rows: what is asked, and a text with a `$` where it is asked.
//! - `@damaged NAME` has no rows: everything is asked of a damaged text.

mod answered;
mod conversation;
mod damaged;
mod queries;

use crate::playing::{NoAnswer, attempt};
use crate::score::Score;
use crate::table::Part;
use std::fmt::Display;

pub use queries::answer;

/// Scores a part that counts as one row.
fn score_one(
    part: &Part<'_>,
    score: &mut Score,
    wrong: impl FnOnce() -> Result<Option<String>, NoAnswer>,
) {
    let fault: Option<Box<dyn Display>> = match attempt(wrong) {
        Ok(None) => None,
        Ok(Some(wrong)) => Some(Box::new(wrong)),
        Err(fault) => Some(Box::new(fault)),
    };
    score.row(format_args!("{}, line {}", part.name, part.line), fault);
}

/// Plays a conversation.
pub fn converse(part: &Part<'_>, score: &mut Score) {
    score_one(part, score, || conversation::wrong_in(part));
}

/// Asks everything of a damaged text.
pub fn damage(part: &Part<'_>, score: &mut Score) {
    score_one(part, score, || {
        let outside = damaged::outside_of_damaged();
        Ok(outside.map(|outside| outside.to_string()))
    });
}
