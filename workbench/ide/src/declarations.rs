//! What a text declares, but for locals: items, members of collections and elements of arrays.

use crate::spots::{Place, Spot};
use crate::walk::{Item, Map};
use edd_lexer::token::{Token, TokenKind};
use edd_source::tokens::is_sign;
use edd_syntax::numbers::Kind;
use edd_syntax::symbols::Symbol;

/// What is declared. Items, collections and arrays are meant by their places in the list of items.
#[derive(Clone, Copy, Debug)]
pub(crate) enum Sort {
    Item(usize),
    /// `names` is the token that names the member's item.
    Member {
        collection: usize,
        names: Option<usize>,
    },
    /// `names` is the token that names the element's variable.
    Element {
        array: usize,
        names: Option<usize>,
    },
    /// A local, which may be used from a token on and before another one.
    Local {
        open: usize,
        from: usize,
        until: usize,
    },
}

#[derive(Clone, Copy, Debug)]
pub(crate) struct Declaration {
    pub(crate) sort: Sort,
    /// The token that is its name, or its number.
    pub(crate) token: usize,
}

/// A member or an element, by its item and by its word or number there.
#[derive(Clone, Copy, Debug)]
struct Inner {
    item: usize,
    key: usize,
    declaration: usize,
}

/// What is declared, in an order that depends on places alone: items first.
#[derive(Debug)]
pub(crate) struct Declarations {
    pub(crate) all: Vec<Declaration>,
    /// The first item with each name, by the numbers of names.
    items: Vec<Option<usize>>,
    /// Sorted by item and key.
    inner: Vec<Inner>,
}

/// Tokens, of which some have a word by its number: names alike have one number.
#[derive(Clone, Copy, Debug)]
pub(crate) struct Words<'t> {
    pub(crate) tokens: &'t [Token],
    pub(crate) numbers: &'t [Option<usize>],
    /// How many numbers there are.
    pub(crate) count: usize,
}

impl Words<'_> {
    /// The number of a token's word.
    pub(crate) fn number(&self, token: usize) -> Option<usize> {
        self.numbers.get(token).copied().flatten()
    }

    /// The value of a token that is an integer.
    pub(crate) fn integer(&self, token: usize) -> Option<usize> {
        match self.tokens.get(token)?.kind {
            TokenKind::Integer(value) => usize::try_from(value).ok(),
            _ => None,
        }
    }

    pub(crate) fn is_name(&self, token: usize) -> bool {
        self.tokens
            .get(token)
            .is_some_and(|token| token.kind == TokenKind::Name)
    }

    /// The name behind a token and a comma.
    fn named_behind(&self, token: usize) -> Option<usize> {
        let name = token.saturating_add(2);
        let is_behind_comma = is_sign(self.tokens, token.saturating_add(1), Symbol::Comma);
        (is_behind_comma && self.is_name(name)).then_some(name)
    }
}

/// The member or the element that a token declares in an item, with its key.
fn inner_at(
    words: Words<'_>,
    items: &[Item],
    item: usize,
    token: usize,
    place: Place,
) -> Option<(Sort, usize)> {
    let names = words.named_behind(token);
    match (items.get(item)?.kind, place) {
        (Kind::Collection, Place::MemberName) if words.is_name(token) => {
            let sort = Sort::Member {
                collection: item,
                names,
            };
            Some((sort, words.number(token)?))
        }
        (Kind::Array, Place::ElementNumber) => {
            let sort = Sort::Element { array: item, names };
            Some((sort, words.integer(token)?))
        }
        _ => None,
    }
}

/// The item in which a token is, or the first one.
fn item_of(items: &[Item], token: usize) -> usize {
    let behind = items.partition_point(|item| item.first <= token);
    behind.saturating_sub(1)
}

impl Declarations {
    /// What is declared in a text.
    pub(crate) fn of(words: Words<'_>, map: &Map) -> Declarations {
        let mut found = Declarations {
            all: Vec::new(),
            items: vec![None; words.count],
            inner: Vec::new(),
        };
        found.add_items(words, &map.items);
        let inner = |spot: &Spot| matches!(spot.place, Place::MemberName | Place::ElementNumber);
        let spots = map.spots.iter().enumerate();
        for (token, spot) in spots.filter(|(_, spot)| inner(spot)) {
            let item = item_of(&map.items, token);
            if let Some((sort, key)) = inner_at(words, &map.items, item, token, spot.place) {
                found.add_inner(item, key, Declaration { sort, token });
            }
        }
        found.inner.sort_by_key(|inner| (inner.item, inner.key));
        found
    }

    fn add_items(&mut self, words: Words<'_>, items: &[Item]) {
        for (index, item) in items.iter().enumerate() {
            self.all.push(Declaration {
                sort: Sort::Item(index),
                token: item.name,
            });
            let number = words.number(item.name).unwrap_or(words.count);
            if let Some(first) = self.items.get_mut(number) {
                *first = first.or(Some(index));
            }
        }
    }

    fn add_inner(&mut self, item: usize, key: usize, declaration: Declaration) {
        self.inner.push(Inner {
            item,
            key,
            declaration: self.all.len(),
        });
        self.all.push(declaration);
    }

    /// The first item of a name. Its declaration has the same number.
    pub(crate) fn item(&self, name: usize) -> Option<usize> {
        self.items.get(name).copied().flatten()
    }

    /// The first member or element of an item that has this key.
    pub(crate) fn inner(&self, item: usize, key: usize) -> Option<usize> {
        let inner = &self.inner;
        let number = inner.partition_point(|inner| (inner.item, inner.key) < (item, key));
        let found = inner.get(number)?;
        (found.item == item && found.key == key).then_some(found.declaration)
    }

    pub(crate) fn sort(&self, declaration: usize) -> Option<Sort> {
        Some(self.all.get(declaration)?.sort)
    }
}
