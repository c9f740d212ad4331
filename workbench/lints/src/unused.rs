//! Variables, collections and arrays that nothing refers to, and what no menu leads to.

use crate::context::Context;
use crate::entries::has_entries;
use crate::kind::{Kind, MenuKind};
use crate::source::index;
use crate::warning::Findings;
use edd_lexer::token::TokenKind;
use edd_syntax::item::{Item, ItemKind};
use edd_syntax::numbers::Kind as ItemSort;
use edd_syntax::reference::Target;

// How often the name of each item is in a source.
fn uses_of(context: &Context<'_>) -> Vec<usize> {
    let source = context.source;
    let mut uses = vec![0_usize; context.instrument.items.len()];
    for (at, token) in source.tokens.iter().enumerate() {
        if token.kind == TokenKind::Name
            && let Some(place) = context.instrument.place_named(source.bytes(at))
            && let Some(count) = uses.get_mut(place)
        {
            *count = count.saturating_add(1);
        }
    }
    uses
}

/// What else is in a description than an item.
struct Around {
    /// Whether there are menus or commands, without which variables are for who reads them.
    has_users: bool,
    /// Whether a menu has an entry.
    has_entries: bool,
    /// The first menu among the items.
    first_menu: Option<usize>,
}

impl Around {
    fn of(items: &[Item<Target>]) -> Around {
        let is_menu = |item: &Item<Target>| item.sort == ItemKind::Menu;
        Around {
            has_users: items
                .iter()
                .any(|item| matches!(item.kind(), ItemSort::Menu | ItemSort::Command)),
            has_entries: items.iter().any(|item| is_menu(item) && has_entries(item)),
            first_menu: items.iter().position(is_menu),
        }
    }

    // What is wrong with the item of a number, to which nothing refers.
    fn unused(&self, item: &Item<Target>, number: usize) -> Option<Kind> {
        let name = item.name().to_owned();
        let kind = match item.kind() {
            ItemSort::Variable if !self.has_users => return None,
            ItemSort::Variable | ItemSort::Collection | ItemSort::Array => MenuKind::Unused(name),
            ItemSort::Method if self.has_entries => MenuKind::UnreachedMethod(name),
            ItemSort::Menu if self.first_menu != Some(number) => MenuKind::UnreachedMenu(name),
            ItemSort::Method | ItemSort::Menu | ItemSort::Command => return None,
        };
        Some(kind.into())
    }
}

/// Checks which items have names that are nowhere but at their declarations.
pub(crate) fn check_uses(context: &Context<'_>, findings: &mut Findings<'_>) {
    let items = context.instrument.items;
    let uses = uses_of(context);
    let around = Around::of(items);
    for ((number, item), count) in items.iter().enumerate().zip(uses) {
        if count < 2
            && let Some(kind) = around.unused(item, number)
        {
            findings.add(index(item.at), kind);
        }
    }
}
