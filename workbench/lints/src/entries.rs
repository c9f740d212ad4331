//! The entries of menus: those that are there twice, and those without labels.

use crate::context::Context;
use crate::kind::MenuKind;
use crate::lists::Listed;
use crate::menus::item_shown;
use crate::source::{TokenIndex, index};
use crate::warning::Findings;
use edd_syntax::cond::{Arm, Cond};
use edd_syntax::expr::Expr;
use edd_syntax::item::{Attribute, Item, ItemKind, MenuEntry};
use edd_syntax::numbers::TextAttribute;
use edd_syntax::reference::Target;
use std::collections::HashMap;

pub(crate) fn has_label(item: &Item<Target>) -> bool {
    item.attributes
        .iter()
        .any(|attribute| matches!(attribute, Attribute::OneText(_, TextAttribute::Label, _)))
}

/// Whether a menu has something among its ITEMS.
pub(crate) fn has_entries(menu: &Item<Target>) -> bool {
    menu.attributes
        .iter()
        .any(|attribute| matches!(attribute, Attribute::Items(_, entries) if !entries.is_empty()))
}

/// What the menus and the collections say of an item.
#[derive(Clone, Copy, Default)]
struct Shown {
    /// The first menu with a LABEL that shows it.
    by: Option<TokenIndex>,
    /// Whether it is an entry of a menu.
    is_entry: bool,
    /// Whether a member of a collection has a label for it.
    is_labelled: bool,
}

fn add_members(item: &Item<Target>, shown: &mut [Shown], context: &Context<'_>) {
    for attribute in &item.attributes {
        let Attribute::Members(_, members) = attribute else {
            continue;
        };
        for member in members.iter().filter(|member| member.label.is_some()) {
            let Target::Item(item) = member.item else {
                continue;
            };
            let place = context.instrument.place_of(item);
            if let Some(shown) = place.and_then(|place| shown.get_mut(place)) {
                shown.is_labelled = true;
            }
        }
    }
}

/// The entries of a menu. Branches of the same conditions have one list.
struct ByCondition<'c, 'd, 't> {
    context: &'c Context<'d>,
    lists: HashMap<(usize, String), usize>,
    all: Vec<Listed<'t, MenuEntry<Target>>>,
}

impl<'t> ByCondition<'_, '_, 't> {
    fn add(&mut self, all: &'t [Cond<Target, MenuEntry<Target>>], list: usize) {
        for c in all {
            match c {
                Cond::Value(value) => self.all.push(Listed { list, value }),
                Cond::If {
                    condition,
                    first,
                    otherwise,
                } => {
                    self.add_branch(first, list, condition, "true");
                    self.add_branch(otherwise, list, condition, "false");
                }
                Cond::Select { on, arms } => {
                    for arm in arms {
                        match arm {
                            Arm::Case { label, body } => {
                                self.add_branch(body, list, on, &label.to_string());
                            }
                            Arm::Default { body, .. } => self.add_branch(body, list, on, "default"),
                        }
                    }
                }
            }
        }
    }

    fn add_branch(
        &mut self,
        all: &'t [Cond<Target, MenuEntry<Target>>],
        list: usize,
        condition: &Expr<Target>,
        branch: &str,
    ) {
        let extent = self.context.places.expression(condition).extent;
        let words = (extent.start..extent.end).map(|at| self.context.source.word(at));
        let text = words.chain([branch]).collect::<Vec<_>>().join(" ");
        let next = self.lists.len().saturating_add(1);
        let inner = *self.lists.entry((list, text)).or_insert(next);
        self.add(all, inner);
    }
}

fn entries_by_condition<'t>(
    menu: &'t Item<Target>,
    context: &Context<'_>,
) -> Vec<Listed<'t, MenuEntry<Target>>> {
    let mut entries = ByCondition {
        context,
        lists: HashMap::new(),
        all: Vec::new(),
    };
    for attribute in &menu.attributes {
        if let Attribute::Items(_, all) = attribute {
            entries.add(all, 0);
        }
    }
    entries.all
}

// Notes what a menu shows, and warns of what one list has twice with the same qualifiers.
fn add_menu(
    menu: &Item<Target>,
    shown: &mut [Shown],
    context: &Context<'_>,
    findings: &mut Findings<'_>,
) {
    let is_labelled = has_label(menu);
    let mut seen = HashMap::new();
    for listed in entries_by_condition(menu, context) {
        let Some((item, qualifiers)) = item_shown(listed.value) else {
            continue;
        };
        let Some(place) = context.instrument.place_of(item) else {
            continue;
        };
        if let Some(shown) = shown.get_mut(place) {
            shown.is_entry = true;
            let by = (is_labelled && !qualifiers.hidden).then_some(index(menu.at));
            shown.by = shown.by.or(by);
        }
        let at = context.places.entry(listed.value);
        let earlier = seen.insert((listed.list, place), (qualifiers, at));
        if let Some((_, other)) = earlier.filter(|(others, _)| *others == qualifiers) {
            let name = context.instrument.items.get(place).map(Item::name);
            let name = name.unwrap_or_default().to_owned();
            findings.add_beside(at, MenuKind::RepeatedEntry(name), other);
        }
    }
}

// An item that a menu shows without a LABEL, or an empty menu. The name of a menu often says enough.
fn check_shown(item: &Item<Target>, shown: Shown, findings: &mut Findings<'_>) {
    let at = index(item.at);
    let name = || item.name().to_owned();
    match item.sort {
        ItemKind::Command => {}
        ItemKind::Menu => {
            if !has_entries(item) && (shown.is_entry || has_label(item)) {
                findings.add(at, MenuKind::Empty(name()));
            }
        }
        _ => {
            if let Some(menu) = shown.by
                && !shown.is_labelled
                && !has_label(item)
            {
                findings.add_beside(at, MenuKind::MissingLabel(name()), menu);
            }
        }
    }
}

/// Checks the entries of all menus, and the items that they show.
pub(crate) fn check_entries(context: &Context<'_>, findings: &mut Findings<'_>) {
    let items = context.instrument.items;
    let mut shown = vec![Shown::default(); items.len()];
    for item in items {
        add_members(item, &mut shown, context);
    }
    for item in items.iter().filter(|item| item.sort == ItemKind::Menu) {
        add_menu(item, &mut shown, context, findings);
    }
    for (item, shown) in items.iter().zip(shown) {
        check_shown(item, shown, findings);
    }
}
