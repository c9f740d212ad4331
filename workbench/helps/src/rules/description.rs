//! A description that breaks rules, and the names that it declares.

use super::enumerators::Enumerators;
use crate::near::{Nearest, names_alike};
use crate::slips::At;
use crate::split::{Split, split_around};
use edd_lexer::token::{Token, TokenKind};
use edd_source::tokens::{is_sign, is_word, word_of};
use edd_source::{Outline, Span};
use edd_syntax::item::{Attribute, Item};
use edd_syntax::numbers::{Kind, TokenNo};
use edd_syntax::operators::BUILTINS;
use edd_syntax::reference::Path;
use edd_syntax::symbols::{Keyword, Symbol};
use edd_syntax::unit::Unit;
use std::cell::OnceCell;
use std::collections::HashMap;
use std::fmt;

/// How many names of a sort one that is unknown is compared with, so that many of both take no long
/// time.
const MOST_NAMES: usize = 10_000;

/// A text that spells a unit, its tokens, the unit's items, and the names that these declare.
pub struct Description<'a> {
    text: &'a [u8],
    tokens: &'a [Token],
    items: &'a [Item<Path>],
    /// The items by their names; of two with one name the first.
    named: HashMap<&'a str, &'a Item<Path>>,
    /// The items by the tokens of their names.
    placed: HashMap<usize, &'a Item<Path>>,
    /// The names of members and locals, and of items, with the token of each one's first declaration,
    /// in order.
    names: Vec<(&'a str, usize)>,
    declared: HashMap<&'a str, usize>,
    enumerators: OnceCell<Enumerators<'a>>,
    /// How often each name stands in the text.
    counts: OnceCell<HashMap<&'a str, usize>>,
}

impl fmt::Debug for Description<'_> {
    fn fmt(&self, f: &mut fmt::Formatter<'_>) -> fmt::Result {
        f.debug_struct("Description")
            .field("items", &self.items.len())
            .field("names", &self.names)
            .finish_non_exhaustive()
    }
}

/// The number of a token.
pub(super) fn number_of(at: TokenNo) -> usize {
    usize::try_from(at.0).unwrap_or(usize::MAX)
}

impl<'a> Description<'a> {
    /// A text with its tokens and the unit that they spell.
    pub fn of(text: &'a [u8], tokens: &'a [Token], unit: &'a Unit) -> Description<'a> {
        let items = unit.items.as_slice();
        let mut named = HashMap::new();
        let mut placed = HashMap::new();
        for item in items {
            named.entry(item.name()).or_insert(item);
            placed.entry(number_of(item.at())).or_insert(item);
        }
        let outline = Outline::of(tokens);
        let mut names = Vec::new();
        let mut declared = HashMap::new();
        for (number, token) in tokens.iter().enumerate() {
            if token.kind == TokenKind::Name && outline.declares(tokens, number) {
                let name = word_of(text, token);
                if !declared.contains_key(name) {
                    declared.insert(name, number);
                    names.push((name, number));
                }
            }
        }
        Description {
            text,
            tokens,
            items,
            named,
            placed,
            names,
            declared,
            enumerators: OnceCell::new(),
            counts: OnceCell::new(),
        }
    }

    /// The enumerators of the variables, which are looked for when one is asked for.
    pub(super) fn enumerators(&self) -> &Enumerators<'a> {
        self.enumerators
            .get_or_init(|| Enumerators::of(self.text, self.tokens, self))
    }

    /// How often a name stands in the text.
    pub(super) fn count(&self, name: &str) -> usize {
        let counts = self.counts.get_or_init(|| {
            let mut counts: HashMap<&str, usize> = HashMap::new();
            for token in self.tokens.iter().filter(|it| it.kind == TokenKind::Name) {
                let count = counts.entry(word_of(self.text, token)).or_default();
                *count = count.saturating_add(1);
            }
            counts
        });
        counts.get(name).copied().unwrap_or(0)
    }

    /// The names of items, members and locals that have a word of this one.
    pub(super) fn names_alike(&self, name: &str) -> Vec<&'a str> {
        let names = self.names.iter().take(MOST_NAMES).map(|(other, _)| *other);
        names_alike(name, names)
    }

    /// The local of this name that is declared before a token, in the item around it.
    pub(super) fn local_before(&self, name: &str, number: usize) -> Option<usize> {
        let first = self.around(number).map(|(_, item)| number_of(item.at()))?;
        let is_local = |at: &usize| {
            let before = at.saturating_sub(1);
            let is_type = is_word(self.tokens, before, Keyword::Int)
                || is_word(self.tokens, before, Keyword::Long);
            is_type && self.word(*at) == name
        };
        (first..number).rev().find(is_local)
    }

    /// The place of a token by its number.
    pub fn span(&self, number: usize) -> Option<Span> {
        self.tokens.get(number).map(Span::of)
    }

    /// Where the arguments of a function are whose name is a token, with their parentheses.
    pub fn arguments(&self, name: usize) -> Option<Span> {
        let open = name.checked_add(1)?;
        if !is_sign(self.tokens, open, Symbol::OpenParenthesis) {
            return None;
        }
        let mut depth: usize = 0;
        for number in open..self.tokens.len() {
            if is_sign(self.tokens, number, Symbol::OpenParenthesis) {
                depth = depth.saturating_add(1);
            } else if is_sign(self.tokens, number, Symbol::CloseParenthesis) {
                depth = depth.saturating_sub(1);
                if depth == 0 {
                    return Some(self.span(open)?.up_to(self.span(number)?));
                }
            }
        }
        None
    }

    /// The number of the token at a place.
    pub(super) fn number_at(&self, span: Span) -> Option<usize> {
        let number = self
            .tokens
            .partition_point(|token| Span::of(token).start < span.start);
        (self.span(number)? == span).then_some(number)
    }

    /// The bytes of a token; none where there is no token of this number.
    pub fn word(&self, number: usize) -> &'a str {
        self.tokens
            .get(number)
            .map_or("", |token| word_of(self.text, token))
    }

    /// The tokens of the text.
    pub fn tokens(&self) -> &'a [Token] {
        self.tokens
    }

    /// The first item with a name.
    pub(super) fn item(&self, name: &str) -> Option<&'a Item<Path>> {
        self.named.get(name).copied()
    }

    /// The token that first declares a name, as an item, a member or a local.
    pub(super) fn declared(&self, name: &str) -> Option<usize> {
        self.declared.get(name).copied()
    }

    /// The item whose name is a token.
    pub(super) fn item_at(&self, name: usize) -> Option<&'a Item<Path>> {
        self.placed.get(&name).copied()
    }

    /// The number of the first item with a name.
    pub fn item_named(&self, name: &str) -> Option<usize> {
        self.number_of_item(number_of(self.item(name)?.at()))
    }

    /// The number of the item whose name is a token.
    pub(super) fn number_of_item(&self, name: usize) -> Option<usize> {
        let (index, item) = self.around(name.saturating_add(1))?;
        (number_of(item.at()) == name).then_some(index)
    }

    /// The item around a token, the last whose name is before it, with its number.
    pub fn around(&self, number: usize) -> Option<(usize, &'a Item<Path>)> {
        let begun = self
            .items
            .partition_point(|item| number_of(item.at()) < number);
        let index = begun.checked_sub(1)?;
        Some((index, self.items.get(index)?))
    }

    /// The collection of which a member names what stands at a token, with its number.
    pub(super) fn collection_around(&self, number: usize) -> Option<(usize, &'a Item<Path>)> {
        let (index, item) = self.around(number)?;
        let is_behind_comma = is_sign(self.tokens, number.saturating_sub(1), Symbol::Comma);
        (item.kind() == Kind::Collection && is_behind_comma).then_some((index, item))
    }

    /// Whether a token is in the body of a method.
    pub(super) fn is_in_body(&self, number: usize) -> bool {
        let Some((_, item)) = self.around(number) else {
            return false;
        };
        let mut written = item.attributes().iter().rev();
        let around = written.find(|attribute| number_of(attribute.at()) < number);
        matches!(around, Some(Attribute::Definition(..)))
    }

    // Whether a token is the name that a member is declared by.
    fn is_member(&self, number: usize) -> bool {
        let before = number.saturating_sub(1);
        let begins = is_sign(self.tokens, before, Symbol::OpenBrace)
            || is_sign(self.tokens, before, Symbol::Semicolon);
        begins && is_sign(self.tokens, number.saturating_add(1), Symbol::Comma)
    }

    /// The words around a token that stand for one that is meant.
    pub(super) fn split_around(
        &self,
        number: usize,
        is_meant: impl Fn(&str) -> bool,
    ) -> Option<Split> {
        let at = At {
            text: self.text,
            tokens: self.tokens,
            number,
            first: number,
        };
        split_around(at, is_meant)
    }

    /// The name that is nearest to this one: of members, or of items, of functions and of what else
    /// is declared.
    pub(super) fn nearest<'w>(&self, name: &'w str, is_member: bool) -> Nearest<'w, 'a> {
        let mut nearest = Nearest::to(name);
        if !is_member {
            for function in BUILTINS {
                nearest.look(function.name());
            }
        }
        for (other, number) in self.names.iter().take(MOST_NAMES) {
            if !is_member || self.is_member(*number) {
                nearest.look(other);
            }
        }
        nearest
    }
}
