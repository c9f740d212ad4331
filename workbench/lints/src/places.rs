//! Where the nodes of the trees are in the source.
//!
//! A tree says where its attributes are, and little else. One walk over trees and tokens finds the
//! tokens of each node, so that a lint may look at nodes in any order.

mod addresses;
mod locator;

use crate::source::{Source, TokenIndex};
use addresses::Addresses;
use edd_syntax::cond::{Arm, Cond};
use edd_syntax::expr::Expr;
use edd_syntax::item::{Item, MenuEntry};
use edd_syntax::reference::Target;
use edd_syntax::stmt::{Declarator, Stmt};
use locator::Locator;

/// The tokens from `start` up to `end`.
#[derive(Clone, Copy, Default, PartialEq, Eq)]
pub(crate) struct Extent {
    pub(crate) start: TokenIndex,
    pub(crate) end: TokenIndex,
}

/// The tokens of an expression or a statement.
#[derive(Clone, Copy, Default)]
pub(crate) struct Place {
    pub(crate) extent: Extent,
    /// The sign of an operator, the name of a call, the word of a statement.
    pub(crate) sign: TokenIndex,
}

/// The tokens of an IF or a SELECT.
#[derive(Clone, Copy, Default)]
pub(crate) struct Branches {
    /// Where the word is.
    pub(crate) word: TokenIndex,
    /// What is in the braces of an IF.
    pub(crate) first: Extent,
    /// What is in the braces after its ELSE. An ELSE IF has none.
    pub(crate) otherwise: Option<Extent>,
}

/// The tokens of all nodes.
#[derive(Default)]
pub(crate) struct Places {
    expressions: Addresses<Expr<Target>, Place>,
    statements: Addresses<Stmt<Target>, Place>,
    declarators: Addresses<Declarator<Target>, TokenIndex>,
    entries: Addresses<MenuEntry<Target>, TokenIndex>,
    // Of conditionals and arms of any values.
    conditionals: Addresses<(), Branches>,
    arms: Addresses<(), TokenIndex>,
}

impl Places {
    // Room for the nodes that so many tokens have in most descriptions, so that few are moved.
    fn with_room(tokens: usize) -> Places {
        let mut places = Places::default();
        places.expressions.reserve(tokens / 10);
        places.statements.reserve(tokens / 40);
        places
    }

    /// The places of the nodes of a description with these items.
    pub(crate) fn of(source: Source<'_>, items: &[Item<Target>]) -> Places {
        let mut locator = Locator::new(source);
        for item in items {
            locator.item(item);
        }
        locator.places
    }

    /// The tokens of an expression.
    pub(crate) fn expression(&self, e: &Expr<Target>) -> Place {
        self.expressions.get(e)
    }

    /// The token that stands for an expression in messages: its sign, or its name.
    pub(crate) fn sign(&self, e: &Expr<Target>) -> TokenIndex {
        self.expression(e).sign
    }

    pub(crate) fn statement(&self, s: &Stmt<Target>) -> Place {
        self.statements.get(s)
    }

    /// The name of a local, where it is declared.
    pub(crate) fn declarator(&self, declarator: &Declarator<Target>) -> TokenIndex {
        self.declarators.get(declarator)
    }

    /// The first token of an entry of a menu.
    pub(crate) fn entry(&self, entry: &MenuEntry<Target>) -> TokenIndex {
        self.entries.get(entry)
    }

    /// The tokens of an IF or a SELECT.
    pub(crate) fn conditional<V>(&self, conditional: &Cond<Target, V>) -> Branches {
        self.conditionals.get_at(addresses::of(conditional))
    }

    /// The word of an arm, CASE or DEFAULT.
    pub(crate) fn arm<V>(&self, arm: &Arm<Target, V>) -> TokenIndex {
        self.arms.get_at(addresses::of(arm))
    }
}
