//! A walk over the tokens of a text, which finds its items and what may stand at each token.

use crate::spots::{Braces, Place, Spot, is_attribute, is_number_word, is_type_part};
use edd_lexer::token::{Token, TokenKind};
use edd_source::tokens::{is_sign, is_word, item_kind};
use edd_syntax::numbers::Kind;
use edd_syntax::symbols::{Keyword, Symbol};

/// An item by the numbers of its tokens.
#[derive(Clone, Copy, Debug)]
pub(crate) struct Item {
    pub(crate) kind: Kind,
    /// Its first word.
    pub(crate) first: usize,
    pub(crate) name: usize,
    /// Its last brace; of an unfinished item its last token.
    pub(crate) last: usize,
}

/// What the tokens of a text are.
#[derive(Debug)]
pub(crate) struct Map {
    /// Of each token what may stand there, and one more for the end.
    pub(crate) spots: Vec<Spot>,
    pub(crate) items: Vec<Item>,
}

/// Braces that are open.
#[derive(Clone, Copy, Debug)]
struct Level {
    braces: Braces,
    open: usize,
    /// The word whose value is being written.
    word: Option<Keyword>,
    /// Whether a word may begin here.
    is_fresh: bool,
    commas: usize,
    parentheses: usize,
    /// What the outermost parentheses hold.
    inside: Place,
    /// Whether locals are being declared.
    declares: bool,
}

/// An item before its braces.
#[derive(Clone, Copy, Debug)]
struct Head {
    kind: Kind,
    first: usize,
    is_named: bool,
}

struct Walk<'t> {
    tokens: &'t [Token],
    levels: Vec<Level>,
    head: Option<Head>,
    /// The kind after OF.
    of: Option<Kind>,
    /// Whether the last item goes on.
    is_in_item: bool,
    spots: Vec<Spot>,
    items: Vec<Item>,
}

impl Level {
    fn new(braces: Braces, open: usize) -> Level {
        Level {
            braces,
            open,
            word: None,
            is_fresh: true,
            commas: 0,
            parentheses: 0,
            inside: Place::Other,
            declares: false,
        }
    }

    /// What braces hold that open here.
    fn inner(&self) -> Braces {
        match (self.braces, self.word) {
            (Braces::Item(_), Some(word)) if !self.is_fresh => braces_of(word),
            (Braces::Transaction, Some(word)) if !self.is_fresh => Braces::List(word),
            (Braces::Type, Some(word)) if !self.is_fresh => Braces::Branch(word),
            (Braces::Type, _) if self.is_fresh => Braces::Enumerator,
            (Braces::Type | Braces::List(_) | Braces::Branch(_) | Braces::Body, _) => self.braces,
            _ => Braces::Other,
        }
    }

    /// What parentheses hold that open behind a token.
    fn in_parentheses(&self, is_behind_condition: bool) -> Place {
        if is_behind_condition {
            return Place::Expression;
        }
        let word = match self.braces {
            Braces::Body => return Place::Body,
            Braces::List(word) => return Place::Qualifier(word),
            Braces::Branch(word) => Some(word),
            _ => self.word,
        };
        match word {
            Some(word) if is_number_word(word) => Place::Expression,
            _ => Place::Other,
        }
    }

    /// Whether a word begins an attribute or a part in these braces.
    fn begins(&self, word: Keyword) -> bool {
        match self.braces {
            Braces::Item(_) => is_attribute(word),
            Braces::Transaction => matches!(word, Keyword::Request | Keyword::Reply),
            Braces::Type => is_type_part(word),
            _ => false,
        }
    }

    /// Takes a word.
    fn take_word(&mut self, word: Keyword) {
        if self.begins(word) {
            self.word = Some(word);
            self.parentheses = 0;
        } else if self.is_fresh && matches!(word, Keyword::If | Keyword::Select) {
            self.word = None;
        }
        if matches!(word, Keyword::Int | Keyword::Long) {
            self.declares = true;
            self.parentheses = 0;
        }
        self.is_fresh = false;
    }

    fn take_semicolon(&mut self) {
        if self.braces != Braces::Body {
            self.parentheses = 0;
        }
        self.word = None;
        self.is_fresh = true;
        self.commas = 0;
        self.declares = false;
    }

    fn take_comma(&mut self) {
        self.commas = self.commas.saturating_add(1);
        if self.braces == Braces::Type {
            self.word = None;
            self.is_fresh = true;
        }
    }

    /// Takes the braces that closed in it.
    fn take_braces(&mut self) {
        self.is_fresh = true;
        self.commas = 0;
        self.parentheses = 0;
        self.declares = false;
    }
}

/// What braces hold behind the word of an attribute.
fn braces_of(word: Keyword) -> Braces {
    match word {
        Keyword::Items => Braces::List(word),
        Keyword::Members => Braces::Members,
        Keyword::Elements => Braces::Elements,
        Keyword::Definition => Braces::Body,
        Keyword::Transaction => Braces::Transaction,
        Keyword::ResponseCodes => Braces::ResponseCodes,
        Keyword::Type => Braces::Type,
        _ => Braces::Branch(word),
    }
}

impl Walk<'_> {
    fn kind(&self, number: usize) -> Option<TokenKind> {
        Some(self.tokens.get(number)?.kind)
    }

    fn is_before(&self, number: usize, sign: Symbol) -> bool {
        let before = number.checked_sub(1);
        before.is_some_and(|before| is_sign(self.tokens, before, sign))
    }

    fn is_word_before(&self, number: usize, word: Keyword) -> bool {
        let before = number.checked_sub(1);
        before.is_some_and(|before| is_word(self.tokens, before, word))
    }

    /// Whether the token of a number is the class of a response code.
    fn is_class(&self, number: usize) -> bool {
        let value = number.checked_sub(2).and_then(|value| self.kind(value));
        matches!(value, Some(TokenKind::Integer(_))) && self.is_before(number, Symbol::Comma)
    }

    fn body_place(&self, level: &Level, number: usize) -> Place {
        let is_first =
            self.is_word_before(number, Keyword::Int) || self.is_word_before(number, Keyword::Long);
        let is_next = level.parentheses == 0 && self.is_before(number, Symbol::Comma);
        if level.declares && (is_first || is_next) {
            return Place::Declarator;
        }
        Place::Body
    }

    /// What may stand at a token in braces.
    fn place_in(&self, level: &Level, number: usize) -> Place {
        if level.parentheses != 0 && level.braces != Braces::Body {
            return level.inside;
        }
        let begins = || match self.kind(number) {
            Some(TokenKind::Keyword(word)) => level.begins(word),
            _ => false,
        };
        match (level.braces, level.commas) {
            (Braces::Item(_) | Braces::Transaction | Braces::Type, _)
                if level.is_fresh || begins() =>
            {
                Place::Start(level.braces)
            }
            (Braces::Item(_) | Braces::Type, _) => level.word.map_or(Place::Other, Place::Value),
            (Braces::List(word), _) => Place::Entry(word),
            (Braces::Branch(word), _) => Place::Value(word),
            (Braces::Members, 0) => Place::MemberName,
            (Braces::Members, 1) => Place::MemberItem(self.of),
            (Braces::Elements, 0) => Place::ElementNumber,
            (Braces::Elements, 1) => Place::ElementVariable,
            (Braces::ResponseCodes, _) if self.is_class(number) => Place::ResponseClass,
            (Braces::Body, _) => self.body_place(level, number),
            _ => Place::Other,
        }
    }

    fn spot(&self, number: usize) -> Spot {
        match (self.levels.last(), self.head) {
            (Some(level), _) => Spot {
                place: self.place_in(level, number),
                open: Some(level.open),
                is_in_parentheses: level.parentheses != 0,
            },
            (None, head) => Spot {
                place: head.map_or(Place::Top, |head| Place::Head(head.kind)),
                open: None,
                is_in_parentheses: false,
            },
        }
    }

    /// The kind of the item that a token begins. No item's word is in the braces of another item, so
    /// there the braces before it are unfinished.
    fn begun(&self, number: usize, token: &Token) -> Option<Kind> {
        let kind = item_kind(token)?;
        let is_operation = kind == Kind::Command && self.is_word_before(number, Keyword::Operation);
        let is_begun = !is_operation && !self.is_word_before(number, Keyword::Of);
        is_begun.then_some(kind)
    }

    fn begin(&mut self, number: usize, kind: Kind) {
        self.levels.clear();
        self.is_in_item = false;
        self.of = None;
        self.head = Some(Head {
            kind,
            first: number,
            is_named: false,
        });
    }

    /// A name before the braces of an item is that of the item.
    fn take_name(&mut self, number: usize) {
        if let Some(head) = &mut self.head
            && !head.is_named
            && self.levels.is_empty()
        {
            head.is_named = true;
            self.is_in_item = true;
            self.items.push(Item {
                kind: head.kind,
                first: head.first,
                name: number,
                last: number,
            });
        }
    }

    /// Takes a word that begins no item.
    fn take_word(&mut self, number: usize, word: Keyword, token: &Token) {
        if self.is_word_before(number, Keyword::Of) && self.levels.is_empty() {
            self.of = item_kind(token);
        }
        if is_attribute(word) {
            self.levels.truncate(1);
        }
        if let Some(level) = self.levels.last_mut() {
            level.take_word(word);
        }
    }

    fn open(&mut self, number: usize) {
        let braces = match (self.levels.last(), self.head) {
            (Some(level), _) => level.inner(),
            (None, Some(head)) => Braces::Item(head.kind),
            (None, None) => Braces::Other,
        };
        self.levels.push(Level::new(braces, number));
    }

    fn close(&mut self) {
        self.levels.pop();
        match self.levels.last_mut() {
            Some(level) => level.take_braces(),
            None => {
                self.head = None;
                self.is_in_item = false;
            }
        }
    }

    fn take_sign(&mut self, number: usize, sign: Symbol) {
        let before = number.checked_sub(1).and_then(|before| self.kind(before));
        let Some(level) = self.levels.last_mut() else {
            return;
        };
        match sign {
            Symbol::Semicolon => level.take_semicolon(),
            Symbol::Comma => level.take_comma(),
            Symbol::Colon => level.is_fresh = level.braces != Braces::Body,
            Symbol::OpenParenthesis => {
                if level.parentheses == 0 {
                    let conditions = [Keyword::If, Keyword::Select].map(TokenKind::Keyword);
                    let is_behind_condition = before.is_some_and(|it| conditions.contains(&it));
                    level.inside = level.in_parentheses(is_behind_condition);
                }
                level.parentheses = level.parentheses.saturating_add(1);
                level.is_fresh = false;
            }
            Symbol::CloseParenthesis => level.parentheses = level.parentheses.saturating_sub(1),
            _ => level.is_fresh = false,
        }
    }

    fn take(&mut self, number: usize, token: &Token) {
        if let Some(kind) = self.begun(number, token) {
            self.begin(number, kind);
            return;
        }
        if let (true, Some(item)) = (self.is_in_item, self.items.last_mut()) {
            item.last = number;
        }
        match token.kind {
            TokenKind::Keyword(word) => self.take_word(number, word, token),
            TokenKind::Symbol(Symbol::OpenBrace) => self.open(number),
            TokenKind::Symbol(Symbol::CloseBrace) => self.close(),
            TokenKind::Symbol(sign) => self.take_sign(number, sign),
            kind => {
                if kind == TokenKind::Name {
                    self.take_name(number);
                }
                if let Some(level) = self.levels.last_mut() {
                    level.is_fresh = false;
                }
            }
        }
    }
}

/// The items of a text, and what may stand at each of its tokens.
pub(crate) fn map_of(tokens: &[Token]) -> Map {
    let mut walk = Walk {
        tokens,
        levels: Vec::new(),
        head: None,
        of: None,
        is_in_item: false,
        spots: Vec::with_capacity(tokens.len().saturating_add(1)),
        items: Vec::new(),
    };
    for (number, token) in tokens.iter().enumerate() {
        let spot = walk.spot(number);
        walk.spots.push(spot);
        walk.take(number, token);
    }
    let end = walk.spot(tokens.len());
    walk.spots.push(end);
    Map {
        spots: walk.spots,
        items: walk.items,
    }
}
