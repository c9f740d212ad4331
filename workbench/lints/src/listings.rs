//! What menus, collections and arrays list: labels and items that are there twice, qualifiers that
//! do nothing, and lists without anything.

use crate::context::Context;
use crate::entries::has_label;
use crate::kind::MenuKind;
use crate::lists::Listed;
use crate::menus::{entries_of, item_shown};
use crate::source::{Source, TokenIndex, index};
use crate::traits::quoted;
use crate::warning::Findings;
use edd_lexer::token::TokenKind;
use edd_syntax::cond::Cond;
use edd_syntax::item::{Attribute, Item, ItemKind, MenuEntry, MenuQualifiers};
use edd_syntax::numbers::{ItemNo, TextAttribute};
use edd_syntax::reference::Target;
use edd_syntax::symbols::Symbol;
use std::collections::{HashMap, HashSet};

// The LABEL of an item, where it is a text under no condition.
fn label_of(item: &Item<Target>) -> Option<&str> {
    item.attributes
        .iter()
        .find_map(|attribute| match attribute {
            Attribute::OneText(_, TextAttribute::Label, Cond::Value(text)) => quoted(text),
            _ => None,
        })
}

// The items of a list that are shown with one label.
fn check_labels(
    entries: &[Listed<'_, MenuEntry<Target>>],
    context: &Context<'_>,
    findings: &mut Findings<'_>,
) {
    let items = context.instrument.items;
    let mut seen: HashMap<(usize, &str), (usize, TokenIndex)> = HashMap::new();
    for listed in entries {
        let at = context.places.entry(listed.value);
        let shown = item_shown(listed.value).filter(|(_, qualifiers)| !qualifiers.hidden);
        let place = shown.and_then(|(item, _)| context.instrument.place_of(item));
        // A member of a collection may have a label of its own.
        let is_plain =
            context.source.kind(at.saturating_add(1)) != Some(TokenKind::Symbol(Symbol::Dot));
        let Some((place, item)) = place.and_then(|place| Some((place, items.get(place)?))) else {
            continue;
        };
        // A method may be called as what it sets.
        let is_plain = is_plain && item.sort == ItemKind::Variable;
        let Some(label) = label_of(item).filter(|label| is_plain && !label.is_empty()) else {
            continue;
        };
        match seen.get(&(listed.list, label)) {
            Some((other, earlier)) if *other != place => {
                let other = items.get(*other).map(Item::name).unwrap_or_default();
                let kind = MenuKind::RepeatedLabel(item.name().to_owned(), other.to_owned());
                findings.add_beside(at, kind, *earlier);
            }
            Some(_) => {}
            None => {
                seen.insert((listed.list, label), (place, at));
            }
        }
    }
}

// A text that is the name of an item.
fn check_quoted(entry: &MenuEntry<Target>, context: &Context<'_>, findings: &mut Findings<'_>) {
    let MenuEntry::Text(text) = entry else {
        return;
    };
    let is_name = |text: &&str| {
        context.instrument.has_name(text) && !text.contains(|sign: char| sign.is_uppercase())
    };
    if let Some(name) = quoted(text).filter(is_name) {
        let at = context.places.entry(entry);
        findings.add(at, MenuKind::QuotedItem(name.to_owned()));
    }
}

// The words of the qualifiers behind an entry.
fn qualifiers_behind(at: TokenIndex, source: Source<'_>) -> impl Iterator<Item = TokenIndex> + '_ {
    let is_path =
        |kind: TokenKind| matches!(kind, TokenKind::Name | TokenKind::Symbol(Symbol::Dot));
    let behind = (at..).find(|token| !source.kind(*token).is_some_and(is_path));
    let open = behind
        .filter(|token| source.kind(*token) == Some(TokenKind::Symbol(Symbol::OpenParenthesis)));
    let words = open.map_or(0..0, |open| open.saturating_add(1)..source.tokens.len());
    words
        .take_while(move |token| {
            source.kind(*token) != Some(TokenKind::Symbol(Symbol::CloseParenthesis))
        })
        .filter(move |token| source.kind(*token) == Some(TokenKind::Name))
}

fn misplaced(sort: ItemKind, qualifiers: MenuQualifiers) -> Option<&'static str> {
    let all = match sort {
        ItemKind::Method => [
            (qualifiers.display_value, "DISPLAY_VALUE"),
            (qualifiers.read_only, "READ_ONLY"),
            (qualifiers.review, "REVIEW"),
        ],
        ItemKind::Menu => [
            (qualifiers.display_value, "DISPLAY_VALUE"),
            (false, ""),
            (false, ""),
        ],
        _ => return None,
    };
    all.into_iter()
        .find(|(is_there, _)| *is_there)
        .map(|(_, word)| word)
}

fn check_qualifiers(entry: &MenuEntry<Target>, context: &Context<'_>, findings: &mut Findings<'_>) {
    let Some((item, qualifiers)) = item_shown(entry) else {
        return;
    };
    let at = context.places.entry(entry);
    let mut seen = HashSet::new();
    for word in qualifiers_behind(at, context.source) {
        let name = context.source.word(word);
        if !seen.insert(name) {
            findings.add(word, MenuKind::RepeatedQualifier(name.to_owned()));
        }
    }
    if qualifiers.hidden && qualifiers.display_value {
        findings.add(at, MenuKind::HiddenQualifiers);
    }
    let place = context.instrument.place_of(item);
    if let ItemNo::Variable(number) = item
        && let Some(variable) = context.instrument.variable(number.0)
        && variable.is_write_only
        && (qualifiers.display_value || qualifiers.read_only)
        && !qualifiers.hidden
    {
        let name = variable.name().to_owned();
        findings.add(at, MenuKind::UnreadableEntry(name));
    }
    if let Some(item) = place.and_then(|place| context.instrument.items.get(place))
        && let Some(qualifier) = misplaced(item.sort, qualifiers)
    {
        findings.add(
            at,
            MenuKind::MisplacedQualifier(qualifier, item.name().to_owned()),
        );
    }
}

fn check_menu(menu: &Item<Target>, context: &Context<'_>, findings: &mut Findings<'_>) {
    let entries = entries_of(menu);
    check_labels(&entries, context, findings);
    let mut are_hidden = !entries.is_empty() && has_label(menu);
    for listed in &entries {
        check_quoted(listed.value, context, findings);
        check_qualifiers(listed.value, context, findings);
        are_hidden &= item_shown(listed.value).is_some_and(|(_, qualifiers)| qualifiers.hidden);
    }
    if are_hidden {
        findings.add(index(menu.at), MenuKind::HiddenMenu(menu.name().to_owned()));
    }
}

/// A member of a collection or an element of an array.
struct Member {
    at: TokenIndex,
    target: Target,
    is_labelled: bool,
}

// The members of a collection or the elements of an array.
fn check_listed(
    item: &Item<Target>,
    listed: impl ExactSizeIterator<Item = Member>,
    context: &Context<'_>,
    findings: &mut Findings<'_>,
) {
    if listed.len() == 0 {
        findings.add(index(item.at), MenuKind::EmptyList(item.name().to_owned()));
    }
    let mut seen: HashMap<usize, TokenIndex> = HashMap::new();
    // Those with a label of their own are told apart by it.
    for Member { at, target, .. } in listed.filter(|member| !member.is_labelled) {
        let Target::Item(number) = target else {
            continue;
        };
        let Some(place) = context.instrument.place_of(number) else {
            continue;
        };
        if let Some(earlier) = seen.insert(place, at) {
            let name = context.instrument.items.get(place).map(Item::name);
            let kind = MenuKind::RepeatedMember(name.unwrap_or_default().to_owned());
            findings.add_beside(at, kind, earlier);
        }
    }
}

/// Checks what an item lists.
pub(crate) fn check_listings(
    item: &Item<Target>,
    context: &Context<'_>,
    findings: &mut Findings<'_>,
) {
    if item.sort == ItemKind::Menu {
        check_menu(item, context, findings);
    }
    for attribute in &item.attributes {
        match attribute {
            Attribute::Members(_, members) => {
                let listed = members.iter().map(|member| Member {
                    at: index(member.at),
                    target: member.item,
                    is_labelled: member.label.is_some(),
                });
                check_listed(item, listed, context, findings);
            }
            Attribute::Elements(_, elements) => {
                let listed = elements.iter().map(|one| Member {
                    at: index(one.at),
                    target: one.variable,
                    is_labelled: one.label.is_some(),
                });
                check_listed(item, listed, context, findings);
            }
            Attribute::Definition(at, parts) => {
                let close = index(*at).saturating_add(2);
                let is_empty = parts.is_empty() && !context.source.has_comment_before(close);
                if is_empty && has_label(item) {
                    findings.add(
                        index(item.at),
                        MenuKind::EmptyMethod(item.name().to_owned()),
                    );
                }
            }
            _ => {}
        }
    }
}
