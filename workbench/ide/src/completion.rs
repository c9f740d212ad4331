//! What may be written at a place.

use crate::Document;
use crate::comments::is_unread;
use crate::cursor::{
    Cursor, begins_statement, cursor_at, is_behind_if, is_enumerated, kind_before, wants_value,
    words_around,
};
use crate::hints::names_command;
use crate::languages::code_before;
use crate::offers::{Completion, CompletionKind, Offers};
use crate::place_terms::role_at;
use crate::signature::{Call, call_before};
use crate::snippets::{attribute_snippet, item_snippet, statement_snippet};
use crate::spots::{Braces, Place, is_number_word};
use edd_lexer::token::TokenKind;
use edd_source::Span;
use edd_syntax::numbers::{ATTRIBUTES, Attr, Home, Kind};
use edd_syntax::operators::Parameter;
use edd_syntax::symbols::{Keyword, Symbol};

/// The words of the header, in their order.
const HEADER: [Keyword; 4] = [
    Keyword::Manufacturer,
    Keyword::DeviceType,
    Keyword::DeviceRevision,
    Keyword::DdRevision,
];

/// How many tokens a header has at most.
const MOST_HEADER: usize = 16;

/// The words with which items begin.
const ITEMS: [Keyword; 6] = [
    Keyword::Variable,
    Keyword::Command,
    Keyword::Menu,
    Keyword::Collection,
    Keyword::Method,
    Keyword::Array,
];

/// The words of the items that a collection may have as members.
const MEMBERS: [Keyword; 5] = [
    Keyword::Variable,
    Keyword::Command,
    Keyword::Menu,
    Keyword::Collection,
    Keyword::Method,
];

/// The words with which statements begin, and those between their parts.
const STATEMENTS: [Keyword; 13] = [
    Keyword::Int,
    Keyword::Long,
    Keyword::MethodIf,
    Keyword::MethodElse,
    Keyword::While,
    Keyword::Do,
    Keyword::For,
    Keyword::Switch,
    Keyword::MethodCase,
    Keyword::MethodDefault,
    Keyword::Break,
    Keyword::Continue,
    Keyword::Return,
];

/// The words of conditions.
const CONDITIONS: [Keyword; 2] = [Keyword::If, Keyword::Select];

/// The kinds of a menu's entries.
const ENTRIES: [Kind; 4] = [Kind::Variable, Kind::Menu, Kind::Collection, Kind::Method];

/// The kinds of which a collection's members are.
const KINDS_OF_MEMBERS: [Kind; 5] = [
    Kind::Variable,
    Kind::Command,
    Kind::Menu,
    Kind::Collection,
    Kind::Method,
];

/// The kinds of what holds a value that a device has.
const HOLDERS: [Kind; 2] = [Kind::Variable, Kind::Collection];

/// The kinds whose items have values, in an expression.
const VALUES: [Kind; 3] = [Kind::Variable, Kind::Collection, Kind::Array];

/// The words that may stand at a place.
#[derive(Clone, Debug, PartialEq, Eq)]
pub struct Completions<'d> {
    /// The part of a word before the place, for which an entry is put in; else an empty span.
    pub replaced: Span,
    /// The likeliest first.
    pub entries: Vec<Completion<'d>>,
}

impl Document {
    /// What may be written at a byte, and the part of a word before it that it replaces. In strings
    /// there are the codes of languages; in comments and numbers, and on a line behind a lexical fault,
    /// there is nothing.
    pub fn completions(&self, byte: usize) -> Completions<'_> {
        let byte = byte.min(self.text().len());
        let mut offers = Offers::new(self);
        let mut replaced = Span::before(byte);
        if let Some(begun) = code_before(self, byte) {
            replaced = begun;
            offers.add_languages(byte);
        } else if let Some(cursor) = cursor_at(self, byte)
            && !is_unread(self, byte)
        {
            replaced = cursor.replaced;
            offers.add_behind(cursor);
        }
        let mut entries = offers.entries;
        let begun = replaced.text(self.text()).unwrap_or_default();
        sort_likeliest(&mut entries, begun);
        Completions { replaced, entries }
    }
}

/// Puts those first that go on with what is written.
pub(crate) fn sort_likeliest(entries: &mut [Completion<'_>], begun: &str) {
    entries.sort_by_key(|entry| !begins_with(entry.label, begun));
}

/// Whether a word begins with the letters that are written, small or large.
fn begins_with(word: &str, begun: &str) -> bool {
    let beginning = word.get(..begun.len());
    beginning.is_some_and(|beginning| beginning.eq_ignore_ascii_case(begun))
}

/// Whether the value of an attribute may depend on conditions.
fn may_be_conditional(word: Keyword) -> bool {
    !matches!(
        word,
        Keyword::Class | Keyword::Type | Keyword::Number | Keyword::Operation
    )
}

impl Offers<'_> {
    /// What may stand at a cursor: members behind a dot, elements behind a bracket, else what its
    /// place says.
    fn add_behind(&mut self, cursor: Cursor) {
        let document = self.document;
        let owner = cursor.token.checked_sub(2);
        match kind_before(document, cursor.token) {
            Some(TokenKind::Symbol(Symbol::Dot)) => {
                if let Some(collection) = owner.and_then(|owner| document.collection_at(owner)) {
                    self.add_members(collection);
                }
            }
            Some(TokenKind::Symbol(Symbol::OpenBracket)) => {
                if let Some(array) = owner.and_then(|owner| document.first_item(owner)) {
                    self.add_elements(array);
                }
                self.add_at(cursor);
            }
            _ => self.add_at(cursor),
        }
    }

    /// What may stand at a cursor by its place.
    fn add_at(&mut self, cursor: Cursor) {
        let token = cursor.token;
        match self.document.spot(token).place {
            Place::Top => self.add_top(cursor),
            Place::Head(_) => self.add_head(token),
            Place::Start(braces) => self.add_parts(cursor, braces),
            Place::Value(word) => self.add_value(token, word),
            Place::Expression => self.add_expression(token),
            Place::Entry(word) => self.add_entry(token, word),
            Place::MemberItem(Some(kind)) => self.add_items(kind),
            Place::MemberItem(None) => self.add_items_of(&KINDS_OF_MEMBERS),
            Place::ElementVariable => self.add_items(Kind::Variable),
            Place::Body => self.add_body(token),
            place => {
                if let Some(role) = role_at(place) {
                    self.add_values(role);
                }
            }
        }
    }

    /// The parts that these braces don't have yet.
    fn add_parts(&mut self, cursor: Cursor, braces: Braces) {
        let words: Vec<Keyword> = match braces {
            Braces::Item(kind) => attributes_of(kind).collect(),
            Braces::Transaction => parts_of(Home::Transaction).collect(),
            Braces::Type => {
                let open = self.document.spot(cursor.token).open.unwrap_or(0);
                if is_enumerated(self.document, open) {
                    vec![Keyword::DefaultValue]
                } else {
                    parts_of(Home::Type).collect()
                }
            }
            _ => return,
        };
        let written = words_around(self.document, cursor);
        // A command may have several transactions.
        let is_missing = |word: &Keyword| *word == Keyword::Transaction || !written.contains(word);
        let missing: Vec<_> = words.into_iter().filter(is_missing).collect();
        self.add_else(cursor.token);
        self.add_beginnings(&missing, CompletionKind::Attribute, attribute_snippet);
    }

    /// What may come before the braces of an item.
    fn add_head(&mut self, token: usize) {
        let before = token.saturating_sub(1);
        let document = self.document;
        if document.is_keyword(before, Keyword::Of) {
            let is_array = document.is_keyword(before.saturating_sub(1), Keyword::Array);
            let kinds: &[Keyword] = if is_array {
                &[Keyword::Variable]
            } else {
                &MEMBERS
            };
            self.add_words(kinds, CompletionKind::Keyword);
        } else if document.is_keyword(before, Keyword::Collection)
            || document.is_keyword(before, Keyword::Array)
        {
            self.add_words(&[Keyword::Of], CompletionKind::Keyword);
        }
    }

    /// The header's words that are missing, in their order, and the words of items. Behind a word of
    /// the header is a number.
    fn add_top(&mut self, cursor: Cursor) {
        let document = self.document;
        let token = cursor.token;
        if let Some(TokenKind::Keyword(word)) = kind_before(document, token)
            && HEADER.contains(&word)
        {
            return;
        }
        if document
            .items()
            .first()
            .is_none_or(|item| token <= item.first)
        {
            let is_written = |word: &Keyword| {
                let before = (0..token).take(MOST_HEADER);
                before.into_iter().any(|it| document.is_keyword(it, *word))
            };
            let missing: Vec<_> = HEADER.into_iter().filter(|it| !is_written(it)).collect();
            self.add_words(&missing, CompletionKind::Keyword);
        }
        self.add_beginnings(&ITEMS, CompletionKind::Keyword, item_snippet);
    }

    /// ELSE behind the braces of an IF.
    fn add_else(&mut self, token: usize) {
        if is_behind_if(self.document, token) {
            self.add_words(&[Keyword::Else], CompletionKind::Keyword);
        }
    }

    /// The words of the cases of SELECT where one may begin, and whether one may.
    fn add_cases(&mut self, token: usize) -> bool {
        let document = self.document;
        let begins = matches!(
            kind_before(document, token),
            Some(TokenKind::Symbol(
                Symbol::OpenBrace | Symbol::Semicolon | Symbol::CloseBrace
            ))
        );
        if document.selector_of(token).is_none() {
            return false;
        }
        if begins {
            self.add_words(&[Keyword::Case, Keyword::Default], CompletionKind::Keyword);
        }
        begins
    }

    /// The value of an attribute.
    fn add_value(&mut self, token: usize, word: Keyword) {
        if let Some(variable) = self.document.compared_with(token) {
            self.add_enumerators(variable);
        }
        if self
            .document
            .is_keyword(token.saturating_sub(1), Keyword::Case)
            || !wants_value(self.document, token)
            || self.add_cases(token)
        {
            return;
        }
        self.add_else(token);
        if is_number_word(word) {
            self.add_items_of(&VALUES);
        } else if let Some(role) = role_at(Place::Value(word)) {
            self.add_values(role);
        }
        let is_first = self.document.is_keyword(token.saturating_sub(1), word);
        if is_first && may_be_conditional(word) {
            self.add_words(&CONDITIONS, CompletionKind::Keyword);
        }
    }

    /// An element of a list.
    fn add_entry(&mut self, token: usize, word: Keyword) {
        let is_first = self
            .document
            .is_sign(token.saturating_sub(1), Symbol::OpenBrace);
        if self.add_cases(token) && is_first {
            return;
        }
        self.add_else(token);
        let kinds: &[Kind] = if word == Keyword::Items {
            &ENTRIES
        } else {
            &HOLDERS
        };
        self.add_items_of(kinds);
        self.add_words(&CONDITIONS, CompletionKind::Keyword);
    }

    /// The names of an expression in a method, and the words of a statement where one may begin.
    fn add_body(&mut self, token: usize) {
        let call = call_before(self.document, token);
        match call.and_then(|call| call.parameter()) {
            Some(Parameter::Text) => return,
            Some(Parameter::Method) => return self.add_items(Kind::Method),
            Some(Parameter::DeviceVariable) => return self.add_items_of(&HOLDERS),
            Some(Parameter::Number) | None => {}
        }
        if let Some(call) = call {
            self.add_command_argument(token, call);
        }
        if let Some(variable) = self.document.compared_with(token) {
            self.add_enumerators(variable);
        }
        if self
            .document
            .is_keyword(token.saturating_sub(1), Keyword::MethodCase)
        {
            return;
        }
        self.add_locals(token);
        self.add_items_of(&VALUES);
        self.add_functions();
        if begins_statement(self.document, token) {
            self.add_beginnings(&STATEMENTS, CompletionKind::Keyword, statement_snippet);
        }
    }

    /// What an expression in an attribute may have.
    fn add_expression(&mut self, token: usize) {
        if let Some(variable) = self.document.compared_with(token) {
            self.add_enumerators(variable);
        }
        self.add_items_of(&VALUES);
    }

    /// The numbers of commands and of their transactions, where an argument begins that is one.
    fn add_command_argument(&mut self, token: usize, call: Call) {
        if !names_command(call.function) {
            return;
        }
        let document = self.document;
        let first = call.open.saturating_add(1);
        if call.argument == 0 && token == first {
            self.add_command_numbers();
        }
        let is_second =
            call.argument == 1 && document.is_sign(token.saturating_sub(1), Symbol::Comma);
        if is_second && let Some(command) = document.command_named(first) {
            for number in document.transactions(command) {
                self.add_number(number, document.word(command.name));
            }
        }
    }
}

/// The words of the attributes that an item of a kind may have.
fn attributes_of(kind: Kind) -> impl Iterator<Item = Keyword> {
    let attributes = ATTRIBUTES.into_iter();
    attributes
        .filter(move |attribute: &Attr| attribute.may_belong_to(kind))
        .filter_map(Attr::word_in_item)
}

/// The words of the parts that braces of TYPE or TRANSACTION may have.
fn parts_of(home: Home) -> impl Iterator<Item = Keyword> {
    let parts = ATTRIBUTES.into_iter().filter(move |attribute| {
        attribute.shape().home == home && attribute.word_in_item().is_none()
    });
    parts.filter_map(|attribute| attribute.shape().word)
}
