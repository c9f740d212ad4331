//! Collections most of whose members are of another kind: there the word after OF is the mistake, and
//! is told once.

use super::description::{Description, number_of};
use super::sentences::RuleHelp;
use crate::{Finding, SyntaxHelp};
use edd_breaches::RuleFault;
use edd_findings::Found;
use edd_source::Confidence;
use edd_source::tokens::{is_sign, kind_word};
use edd_syntax::item::{Attribute, Item};
use edd_syntax::numbers::Kind;
use edd_syntax::reference::Path;
use edd_syntax::symbols::Symbol;
use std::collections::HashMap;

/// How many members a collection has, how many of them are of another kind, and whether that was told
/// for all of these.
#[derive(Clone, Copy, Debug)]
struct Members {
    all: usize,
    others: usize,
    is_told: bool,
}

/// Collections that have a member of another kind, by their numbers among the items.
#[derive(Debug)]
pub struct OtherKinds(HashMap<usize, Members>);

impl OtherKinds {
    /// All collections that have a member of another kind.
    pub fn of<'f>(
        description: &Description<'_>,
        found: impl Iterator<Item = &'f Found>,
    ) -> OtherKinds {
        let mut collections = HashMap::new();
        for found in found {
            if let Some((index, collection)) = collection_of(description, found) {
                let members = collections.entry(index).or_insert_with(|| Members {
                    all: count_members(collection),
                    others: 0,
                    is_told: false,
                });
                members.others = members.others.saturating_add(1);
            }
        }
        OtherKinds(collections)
    }

    /// Whether a breach was told already for all members of the collection in which it is, or of which
    /// it uses one.
    pub fn has_told(&self, description: &Description<'_>, found: &Found) -> bool {
        let own = collection_of(description, found).map(|(index, _)| index);
        own.or_else(|| collection_used(description, found))
            .and_then(|index| self.0.get(&index))
            .is_some_and(|members| members.is_told)
    }

    /// Has what is said of a member stand at the kind of its collection, for all members, where at
    /// least two of them are of another kind and more than half.
    pub fn tell(&mut self, description: &Description<'_>, found: &Found, finding: &mut Finding) {
        let Some((index, item)) = collection_of(description, found) else {
            return;
        };
        let Some(members) = self.0.get_mut(&index) else {
            return;
        };
        let Members { all, others, .. } = *members;
        if others < 2 || others.saturating_mul(2) <= all {
            return;
        }
        members.is_told = true;
        let kind = number_of(item.at()).saturating_sub(1);
        let word = description.word(kind).to_owned();
        finding.span = description.span(kind);
        finding.say(RuleHelp::OtherMembers {
            others,
            all,
            collection: item.name().to_owned(),
            kind: word.clone(),
        });
        if let Some(meant) = kind_of_members(description, item).map(kind_word) {
            let fix = finding.replacement(meant, Confidence::Guess);
            finding.propose(SyntaxHelp::Instead { meant, word }, fix);
        }
    }
}

// The collection in which a member of another kind is, with its number.
fn collection_of<'a>(
    description: &Description<'a>,
    found: &Found,
) -> Option<(usize, &'a Item<Path>)> {
    match found.rule {
        RuleFault::WrongKind(_) => description.collection_around(number_of(found.at?)),
        _ => None,
    }
}

// The number of the collection of which a member of another kind is used.
fn collection_used(description: &Description<'_>, found: &Found) -> Option<usize> {
    let (RuleFault::WrongKind(_), at) = (&found.rule, number_of(found.at?)) else {
        return None;
    };
    if !is_sign(description.tokens(), at.checked_sub(1)?, Symbol::Dot) {
        return None;
    }
    let collection = description.item(description.word(at.checked_sub(2)?))?;
    description.number_of_item(number_of(collection.at()))
}

// The kind that all members have that are of another one, where it is one.
fn kind_of_members(description: &Description<'_>, collection: &Item<Path>) -> Option<Kind> {
    let attributes = collection.attributes().iter();
    let members = attributes.filter_map(|attribute| match attribute {
        Attribute::Members(_, members) => Some(members),
        _ => None,
    });
    let mut kinds = members.flat_map(|members| members.iter()).map(|member| {
        description
            .item(member.item.base.as_str())
            .map(|item| item.kind())
    });
    let first = kinds.next()??;
    kinds.all(|kind| kind == Some(first)).then_some(first)
}

// How many members a collection has.
fn count_members(collection: &Item<Path>) -> usize {
    let attributes = collection.attributes().iter();
    attributes
        .map(|attribute| match attribute {
            Attribute::Members(_, members) => members.len(),
            _ => 0,
        })
        .sum()
}
