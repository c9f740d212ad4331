//! Menus that contain themselves.

use crate::context::Context;
use crate::cycles::{Cycle, find_cycles};
use crate::kind::MenuKind;
use crate::lists::{Listed, values_of};
use crate::source::index;
use crate::warning::Findings;
use edd_syntax::item::{Attribute, Item, ItemKind, MenuEntry, MenuQualifiers};
use edd_syntax::numbers::ItemNo;
use edd_syntax::reference::Target;

/// The entries of a menu.
pub(crate) fn entries_of(menu: &Item<Target>) -> Vec<Listed<'_, MenuEntry<Target>>> {
    let mut lists = menu.attributes.iter();
    let list = lists.find_map(|attribute| match attribute {
        Attribute::Items(_, entries) => Some(values_of(entries)),
        _ => None,
    });
    list.unwrap_or_default()
}

/// The item that an entry of a menu is, with the entry's qualifiers.
pub(crate) fn item_shown(entry: &MenuEntry<Target>) -> Option<(ItemNo, MenuQualifiers)> {
    match entry {
        MenuEntry::Reference {
            to: Target::Item(item),
            qualifiers,
        } => Some((*item, *qualifiers)),
        _ => None,
    }
}

// The menus among the entries of a menu, by their numbers.
fn inner_menus(menu: &Item<Target>) -> Vec<usize> {
    let entries = entries_of(menu);
    let shown = entries.iter().map(|listed| item_shown(listed.value));
    let inner = shown.filter_map(|shown| match shown {
        Some((ItemNo::Menu(number), _)) => Some(usize::from(number.0)),
        _ => None,
    });
    inner.collect()
}

/// Checks which menus contain themselves.
pub(crate) fn check_menus(context: &Context<'_>, findings: &mut Findings<'_>) {
    let items = context.instrument.items.iter();
    let menus: Vec<_> = items.filter(|item| item.sort == ItemKind::Menu).collect();
    let next = menus.iter().map(|menu| inner_menus(menu)).collect();
    for Cycle { node, by } in find_cycles(next) {
        if let (Some(menu), Some(by)) = (menus.get(node), menus.get(by)) {
            let kind = MenuKind::Cyclic(menu.name().to_owned());
            findings.add_beside(index(menu.at), kind, index(by.at));
        }
    }
}
