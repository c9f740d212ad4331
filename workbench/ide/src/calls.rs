//! Which methods and menus name which: a method registers abort methods, a menu shows methods and menus.

use crate::declarations::Sort;
use crate::walk::Item;
use crate::{Document, Symbol};
use edd_source::Span;
use edd_syntax::numbers::Kind;
use std::collections::BTreeMap;

/// An item at one end of calls, with the places at which the one end names the other.
#[derive(Clone, Debug, PartialEq, Eq)]
pub struct Call<'d> {
    /// The item that calls, or the one that is called.
    pub item: Symbol<'d>,
    /// Where the caller names what it calls.
    pub places: Vec<Span>,
}

/// Whether an item of a kind calls others, or is called.
fn is_callable(kind: Kind) -> bool {
    matches!(kind, Kind::Method | Kind::Menu)
}

impl Document {
    /// The method or menu that is named at a byte.
    pub fn callable(&self, byte: usize) -> Option<Symbol<'_>> {
        self.symbol(self.items().get(self.callable_at(byte)?)?)
    }

    /// The methods and menus that name the one at a byte, in the order of the text.
    ///
    /// ```
    /// use edd_ide::Document;
    ///
    /// let text = "METHOD stop { } METHOD run { DEFINITION { add_abort_method(stop); } }";
    /// let document = Document::new(text);
    /// let callers = document.callers(7);
    /// assert_eq!(callers[0].item.name, "run");
    /// assert_eq!(callers[0].places[0].text(text), Some("stop"));
    /// assert_eq!(document.callees(23)[0].item.name, "stop");
    /// ```
    pub fn callers(&self, byte: usize) -> Vec<Call<'_>> {
        let Some(called) = self.callable_at(byte) else {
            return Vec::new();
        };
        let named = (0..self.tokens().len()).filter(|token| self.called_by(*token) == Some(called));
        self.gather(named.filter_map(|token| Some((self.caller_around(token)?, token))))
    }

    /// The methods and menus that the one at a byte names, in the order of the text.
    pub fn callees(&self, byte: usize) -> Vec<Call<'_>> {
        let caller = self.callable_at(byte).and_then(|it| self.items().get(it));
        let tokens = caller.map_or(0..0, |item| item.first..item.last);
        self.gather(tokens.filter_map(|token| Some((self.called_by(token)?, token))))
    }

    /// The method or menu that is named at a byte, by its place among the items.
    fn callable_at(&self, byte: usize) -> Option<usize> {
        self.callable_named(self.token_at(byte)?)
    }

    fn callable_named(&self, token: usize) -> Option<usize> {
        let Sort::Item(item) = self.declared(self.meaning(token)?)?.sort else {
            return None;
        };
        is_callable(self.items().get(item)?.kind).then_some(item)
    }

    /// What a token calls: the method or menu that it names where it does not declare it.
    fn called_by(&self, token: usize) -> Option<usize> {
        let item = self.callable_named(token)?;
        (self.items().get(item)?.name != token).then_some(item)
    }

    /// The method or menu in which a token is.
    fn caller_around(&self, token: usize) -> Option<usize> {
        let items = self.items();
        let before = items.partition_point(|item| item.first <= token);
        let caller = before.checked_sub(1)?;
        let Item { kind, last, .. } = *items.get(caller)?;
        (is_callable(kind) && token <= last).then_some(caller)
    }

    /// The items with the places of the tokens that stand for them.
    fn gather(&self, found: impl Iterator<Item = (usize, usize)>) -> Vec<Call<'_>> {
        let mut places: BTreeMap<usize, Vec<Span>> = BTreeMap::new();
        for (item, token) in found {
            places.entry(item).or_default().extend(self.span(token));
        }
        let calls = places.into_iter().filter_map(|(item, places)| {
            let item = self.symbol(self.items().get(item)?)?;
            Some(Call { item, places })
        });
        calls.collect()
    }
}
