//! Words and names whose `_` is a blank or a hyphen, where the grammar does not take them.

use super::SyntaxHelp;
use super::candidates::word_spelled;
use crate::slips::At;
use crate::split::split_around;
use crate::{Finding, NameHelp};
use edd_lexer::token::{Token, TokenKind};
use edd_source::Confidence;
use edd_source::tokens::word_of;

/// Says which word is meant by several ones around the token that does not fit, if one is. Returns
/// whether it is so.
pub(super) fn say_split_word(at: At<'_>, finding: &mut Finding) -> bool {
    let is_meant = |joined: &str| {
        let is_it =
            |token: &Token| token.kind == TokenKind::Name && word_of(at.text, token) == joined;
        word_spelled(joined).is_some() || at.tokens.iter().any(is_it)
    };
    let Some(split) = split_around(at, is_meant) else {
        return false;
    };
    finding.span = Some(split.span);
    let fix = finding.replacement(&split.joined, Confidence::Guess);
    match word_spelled(&split.joined) {
        Some(meant) => {
            let word = split.span.read(at.text).to_owned();
            finding.propose(SyntaxHelp::Instead { meant, word }, fix);
        }
        None => finding.propose(NameHelp::Meant { near: split.joined }, fix),
    }
    true
}
