//! The items of a text that have no fault of their tokens or their grammar, where others have.

use crate::refusals::number_of;
use edd_breaches::RuleFault;
use edd_findings::Found;
use edd_helps::Description;
use edd_lexer::token::Token;
use edd_source::pieces::{Shape, pieces_of};
use edd_source::tokens::{is_sign, item_kind};
use edd_source::{Outline, Span};
use edd_syntax::symbols::Symbol;
use std::collections::HashSet;

/// What is known of a text of which parts are taken for blanks.
pub(crate) struct Sound<'t> {
    /// Where items are of which something is taken for blanks.
    broken: Vec<bool>,
    /// The words in these parts: what they declare may be used elsewhere.
    words: HashSet<&'t str>,
    /// Whether whole items are lost, so that it is not known which names there are.
    has_lost: bool,
}

impl<'t> Sound<'t> {
    /// Of a text in which these parts are taken for blanks, and the rest has these tokens.
    pub(crate) fn of(
        text: &'t [u8],
        tokens: &[Token],
        broken: &[Span],
        has_lost: bool,
    ) -> Sound<'t> {
        let parts = merged(broken);
        let is_broken = |item: &Span| {
            let next = parts.partition_point(|part| part.end <= item.start);
            parts.get(next).is_some_and(|part| part.start < item.end)
        };
        let words = broken.iter().flat_map(|span| {
            let part = text.get(span.range()).unwrap_or_default();
            pieces_of(part)
                .filter(|piece| piece.shape == Shape::Word)
                .map(move |piece| piece.span.read(part))
        });
        Sound {
            broken: items_of(tokens).iter().map(is_broken).collect(),
            words: words.collect(),
            has_lost,
        }
    }

    /// Whether a breach may be told: it is in an item without a fault, and does not follow from what
    /// is broken elsewhere.
    pub(crate) fn may_tell(&self, description: &Description<'_>, found: &Found) -> bool {
        let Some(at) = found.at.map(number_of) else {
            return false;
        };
        // The name of an item is no part of what is around it.
        let around = description.around(at.saturating_add(1));
        let is_sound = around.is_some_and(|(item, _)| self.broken.get(item) == Some(&false));
        is_sound
            && match &found.rule {
                RuleFault::TooMany(_) => false,
                RuleFault::UnknownName(name) => {
                    let may_be_there = self.has_lost || self.words.contains(name.as_str());
                    !may_be_there && !self.is_of_broken(description, at)
                }
                _ => true,
            }
    }

    // Whether a member is one of a collection that is broken.
    fn is_of_broken(&self, description: &Description<'_>, at: usize) -> bool {
        let Some(collection) = at.checked_sub(2) else {
            return false;
        };
        let is_member = is_sign(
            description.tokens(),
            collection.saturating_add(1),
            Symbol::Dot,
        );
        let number = description.item_named(description.word(collection));
        is_member && number.is_none_or(|number| self.broken.get(number) != Some(&false))
    }
}

// Parts in their order, those that overlap as one.
fn merged(parts: &[Span]) -> Vec<Span> {
    let mut sorted = parts.to_vec();
    sorted.sort_unstable();
    let mut merged: Vec<Span> = Vec::new();
    for part in sorted {
        match merged.last_mut() {
            Some(last) if part.start <= last.end => last.end = last.end.max(part.end),
            _ => merged.push(part),
        }
    }
    merged
}

// Where the items are, from their words to their last tokens.
fn items_of(tokens: &[Token]) -> Vec<Span> {
    let outline = Outline::of(tokens);
    let starts: Vec<usize> = outline
        .items
        .iter()
        .map(|item| {
            let word = (0..item.name).rev().take(4).find(|number| {
                tokens
                    .get(*number)
                    .is_some_and(|token| item_kind(token) == Some(item.kind))
                    && outline.opened(tokens, *number).is_none()
            });
            word.unwrap_or(item.name)
        })
        .collect();
    let ends = starts.iter().skip(1).copied().chain([tokens.len()]);
    let place = |number: usize| tokens.get(number).map(Span::of);
    starts
        .iter()
        .zip(ends)
        .map(|(start, end)| Span {
            start: place(*start).map_or(0, |span| span.start),
            end: place(end.saturating_sub(1)).map_or(0, |span| span.end),
        })
        .collect()
}
