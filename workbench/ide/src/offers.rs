//! The words that are offered at a place, as they are gathered.

use crate::Document;
use crate::class_terms::class_sentence;
use crate::declarations::Sort;
use crate::functions::{as_called, effect_of};
use crate::keyword_terms::{documentation_of, meaning_of};
use crate::place_terms::{CLASS_MEANING, Role, terms_of};
use crate::walk::Item;
use edd_lints::CLASSES;
use edd_syntax::numbers::Kind;
use edd_syntax::operators::BUILTINS;
use edd_syntax::symbols::Keyword;
use std::borrow::Cow;
use std::collections::HashSet;

/// What a completion is.
#[derive(Clone, Copy, Debug, PartialEq, Eq)]
pub enum CompletionKind {
    /// An item.
    Item(Kind),
    /// A member of a collection.
    Member,
    /// A local of a method.
    Local,
    /// A function that methods may call.
    Builtin,
    /// The word of an attribute.
    Attribute,
    /// A reserved word that is no attribute.
    Keyword,
    /// A word that stands for a value, as READ.
    Value,
}

/// A word that may stand at a place.
#[derive(Clone, Debug, PartialEq, Eq)]
pub struct Completion<'d> {
    /// The word.
    pub label: &'d str,
    /// What it is.
    pub kind: CompletionKind,
    /// One line on it, which may be empty.
    pub detail: String,
    /// A sentence or two on a word of the language; empty where it is one of the text.
    pub documentation: Cow<'static, str>,
    /// What an editor that takes snippets writes in its place, with places to fill in.
    pub snippet: Option<Cow<'static, str>>,
}

/// The words that are offered so far.
pub(crate) struct Offers<'d> {
    pub(crate) document: &'d Document,
    pub(crate) entries: Vec<Completion<'d>>,
}

impl<'d> Offers<'d> {
    pub(crate) fn new(document: &'d Document) -> Offers<'d> {
        Offers {
            document,
            entries: Vec::new(),
        }
    }

    /// A word with a line on it.
    pub(crate) fn add(&mut self, label: &'d str, kind: CompletionKind, detail: impl Into<String>) {
        self.entries.push(Completion {
            label,
            kind,
            detail: detail.into(),
            documentation: Cow::Borrowed(""),
            snippet: None,
        });
    }

    /// Reserved words, with what each begins.
    pub(crate) fn add_beginnings(
        &mut self,
        words: &[Keyword],
        kind: CompletionKind,
        snippet: fn(Keyword) -> Option<&'static str>,
    ) {
        let entries = words.iter().map(|word| Completion {
            label: word.spelling(),
            kind,
            detail: meaning_of(*word).to_owned(),
            documentation: Cow::Owned(documentation_of(*word)),
            snippet: snippet(*word).map(Cow::Borrowed),
        });
        self.entries.extend(entries);
    }

    /// Numbers of the text with what each stands for.
    pub(crate) fn add_number(&mut self, token: usize, detail: impl Into<String>) {
        let document = self.document;
        self.add(document.word(token), CompletionKind::Value, detail);
    }

    /// The values of an enumerated variable.
    pub(crate) fn add_enumerators(&mut self, variable: &Item) {
        for value in self.document.enumerators(variable) {
            self.add_number(value.token, value.name);
        }
    }

    /// The numbers of the commands.
    pub(crate) fn add_command_numbers(&mut self) {
        let document = self.document;
        for item in document.items() {
            if let Some(token) = document.number_of_command(item) {
                self.add_number(token, document.word(item.name));
            }
        }
    }

    /// The elements of an array, by its place among the items.
    pub(crate) fn add_elements(&mut self, item: usize) {
        let document = self.document;
        for declared in document.declarations() {
            if let Sort::Element { array, names } = declared.sort
                && array == item
            {
                let named = names.map_or("", |token| document.word(token));
                self.add_number(declared.token, named);
            }
        }
    }

    /// Reserved words, which are of one kind of completion.
    pub(crate) fn add_words(&mut self, words: &[Keyword], kind: CompletionKind) {
        self.add_beginnings(words, kind, |_| None);
    }

    /// The words that stand for values in their place.
    pub(crate) fn add_values(&mut self, role: Role) {
        for (word, meaning) in terms_of(role) {
            self.add_term(word, meaning, meaning);
        }
        if role == Role::Class {
            for class in CLASSES {
                let sentence = class_sentence(class).unwrap_or(CLASS_MEANING);
                self.add_term(class, CLASS_MEANING, sentence);
            }
        }
    }

    fn add_term(&mut self, label: &'d str, detail: &str, sentence: &'static str) {
        self.entries.push(Completion {
            label,
            kind: CompletionKind::Value,
            detail: detail.to_owned(),
            documentation: Cow::Borrowed(sentence),
            snippet: None,
        });
    }

    /// The functions that methods may call.
    pub(crate) fn add_functions(&mut self) {
        self.entries.extend(BUILTINS.map(|function| Completion {
            label: function.name(),
            kind: CompletionKind::Builtin,
            detail: as_called(function),
            documentation: Cow::Borrowed(effect_of(function)),
            snippet: Some(Cow::Owned(format!("{}($1)", function.name()))),
        }));
    }

    /// The items of a kind.
    pub(crate) fn add_items(&mut self, kind: Kind) {
        let document = self.document;
        for (index, item) in document.items().iter().enumerate() {
            // Of two items with one name the first is meant.
            if item.kind == kind && document.first_item(item.name) == Some(index) {
                let label = document.label_of(item);
                self.add(document.word(item.name), CompletionKind::Item(kind), label);
            }
        }
    }

    /// The items of some kinds.
    pub(crate) fn add_items_of(&mut self, kinds: &[Kind]) {
        for kind in kinds {
            self.add_items(*kind);
        }
    }

    /// The members of a collection, by its place among the items.
    pub(crate) fn add_members(&mut self, item: usize) {
        let document = self.document;
        for declared in document.declarations() {
            if let Sort::Member { collection, names } = declared.sort
                && collection == item
            {
                let named = names.map_or("", |token| document.word(token));
                self.add(document.word(declared.token), CompletionKind::Member, named);
            }
        }
    }

    /// The locals that can be used at a token, each where the first of its name is declared.
    pub(crate) fn add_locals(&mut self, token: usize) {
        let document = self.document;
        let mut seen = HashSet::new();
        for declared in document.declarations() {
            if let Sort::Local { from, until, .. } = declared.sort
                && from < token
                && token <= until
                && seen.insert(document.word(declared.token))
            {
                let name = document.word(declared.token);
                self.add(name, CompletionKind::Local, "a local");
            }
        }
    }
}
