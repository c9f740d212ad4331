//! What the text says of an item, a member, an element or a local.

use crate::Document;
use crate::core::split;
use crate::declarations::Sort;
use crate::markdown::Markdown;
use crate::spots::Place;
use crate::walk::Item;
use edd_lexer::token::TokenKind;
use edd_source::Span;
use edd_source::tokens::kind_word;
use edd_strings::choose;
use edd_syntax::symbols::{Keyword, Symbol};
use edd_syntax::words::{Variant, Words};

const ENGLISH: &str = "en";

/// What is told of an item beside its texts and its type, in this order.
const TOLD: [Keyword; 7] = [
    Keyword::MinValue,
    Keyword::MaxValue,
    Keyword::DefaultValue,
    Keyword::ConstantUnit,
    Keyword::Handling,
    Keyword::Number,
    Keyword::Operation,
];

/// The most values of an enumerated variable that are told.
const MOST_ENUMERATORS: usize = 20;

impl Document {
    /// The token with which an attribute of an item begins, or a part of its TYPE.
    pub(crate) fn attribute(&self, item: &Item, word: Keyword) -> Option<usize> {
        (item.first..=item.last).find(|token| {
            self.is_keyword(*token, word) && matches!(self.spot(*token).place, Place::Start(_))
        })
    }

    /// The strings from a token on, joined; none where no string is there.
    pub(crate) fn words_at(&self, first: usize) -> Option<Words> {
        let strings = (first..self.tokens().len())
            .take_while(|token| self.kind(*token) == Some(TokenKind::String))
            .filter_map(|token| self.span(token));
        let raw: Vec<&str> = strings
            .map(|Span { start, end }| {
                let inside = Span {
                    start: start.saturating_add(1),
                    end: end.saturating_sub(1),
                };
                inside.read(self.bytes())
            })
            .collect();
        if raw.is_empty() {
            return None;
        }
        split(&raw.concat())
    }

    /// The text of an attribute that is one text without conditions.
    pub(crate) fn text_of(&self, item: &Item, word: Keyword) -> Option<Words> {
        self.words_at(self.attribute(item, word)?.saturating_add(1))
    }

    /// The label of an item in English, or in its first language; empty where it has none.
    pub(crate) fn label_of(&self, item: &Item) -> String {
        let label = self.text_of(item, Keyword::Label);
        label.map_or_else(String::new, |words| english(&words).to_owned())
    }

    /// The source of the value behind the word of an attribute: up to its semicolon, or the brace
    /// that ends its conditions.
    pub(crate) fn value_behind(&self, token: usize, last: usize) -> Option<Span> {
        let first = token.saturating_add(1);
        let start = self.span(first)?.start;
        let mut depth: usize = 0;
        let mut end = start;
        for next in first..=last {
            let place = self.span(next)?;
            match self.kind(next) {
                Some(TokenKind::Symbol(Symbol::OpenBrace)) => depth = depth.saturating_add(1),
                Some(TokenKind::Symbol(Symbol::CloseBrace | Symbol::Semicolon)) if depth == 0 => {
                    break;
                }
                Some(TokenKind::Symbol(Symbol::CloseBrace)) => {
                    depth = depth.saturating_sub(1);
                    let goes_on = self.is_keyword(next.saturating_add(1), Keyword::Else);
                    if depth == 0 && !goes_on {
                        let end = place.end;
                        return Some(Span { start, end });
                    }
                }
                _ => {}
            }
            end = place.end;
        }
        Some(Span { start, end })
    }

    /// The source of the type of a variable: its word, and its size where one is written.
    pub(crate) fn type_source(&self, item: &Item) -> Option<Span> {
        let word = self.attribute(item, Keyword::Type)?.saturating_add(1);
        if self.kind(word) != Some(TokenKind::Name) {
            return None;
        }
        let close = word.saturating_add(3);
        let has_size = self.is_sign(word.saturating_add(1), Symbol::OpenParenthesis)
            && self.is_sign(close, Symbol::CloseParenthesis);
        let last = if has_size { close } else { word };
        Some(self.span(word)?.up_to(self.span(last)?))
    }

    /// What the text says of an item, by its place among the items.
    pub(crate) fn told_of(&self, item: usize) -> Option<String> {
        let mut markdown = Markdown::default();
        self.describe_item(self.items().get(item)?, &mut markdown);
        markdown.finish()
    }

    /// Writes what the text says of a declaration.
    pub(crate) fn describe(&self, declaration: usize, markdown: &mut Markdown) {
        let Some(declared) = self.declared(declaration) else {
            return;
        };
        let word = self.word(declared.token);
        match declared.sort {
            Sort::Item(item) => {
                if let Some(item) = self.items().get(item) {
                    self.describe_item(item, markdown);
                }
            }
            Sort::Member { collection, names } => {
                markdown.push(&format!("`{}.{word}`", self.item_name(collection)));
                self.describe_named(names, markdown);
            }
            Sort::Element { array, names } => {
                markdown.push(&format!("`{}[{word}]`", self.item_name(array)));
                self.describe_named(names, markdown);
            }
            Sort::Local { .. } => {
                markdown.push(&format!("`int {word}`: a local, which has 32 bits"));
            }
        }
    }

    /// Writes what the text says of the item that a token names, if there is one.
    fn describe_named(&self, names: Option<usize>, markdown: &mut Markdown) {
        if let Some(item) = names.and_then(|token| self.item_named(token)) {
            self.describe_item(item, markdown);
        }
    }

    /// Writes what the text says of an item: its kind, name, label, type, limits and values, and help.
    fn describe_item(&self, item: &Item, markdown: &mut Markdown) {
        markdown.begin_paragraph();
        let (kind, name) = (kind_word(item.kind), self.word(item.name));
        markdown.push(&format!("`{kind} {name}`"));
        push_words(self.text_of(item, Keyword::Label), markdown);
        self.describe_attributes(item, markdown);
        self.describe_enumerators(item, markdown);
        push_words(self.text_of(item, Keyword::Help), markdown);
    }

    /// Writes the type of a variable and what else is short to say of an item, as it stands in the
    /// source.
    fn describe_attributes(&self, item: &Item, markdown: &mut Markdown) {
        let source = self.type_source(item);
        let mut parts: Vec<_> = source.map(|source| (None, source)).into_iter().collect();
        parts.extend(TOLD.into_iter().filter_map(|word| {
            let token = self.attribute(item, word)?;
            Some((Some(word), self.value_behind(token, item.last)?))
        }));
        for (number, (word, source)) in parts.into_iter().enumerate() {
            if number == 0 {
                markdown.begin_paragraph();
            } else {
                markdown.push(", ");
            }
            if let Some(word) = word {
                markdown.push_escaped(word.spelling());
                markdown.push(" ");
            }
            markdown.push_code(source.read(self.bytes()));
        }
    }

    /// Writes the values of an enumerated variable, each on a line of its own.
    fn describe_enumerators(&self, item: &Item, markdown: &mut Markdown) {
        for (number, value) in self.enumerators(item).take(MOST_ENUMERATORS).enumerate() {
            if number == 0 {
                markdown.begin_paragraph();
            } else {
                markdown.push("  \n");
            }
            markdown.push_code(self.word(value.token));
            markdown.push(" ");
            markdown.push_escaped(&value.name);
        }
    }
}

/// The text in English, or in its first language.
pub(crate) fn english(words: &Words) -> &str {
    choose(words, ENGLISH)
}

fn push_variant(variant: &Variant, markdown: &mut Markdown) {
    markdown.push_code(variant.code.as_str());
    markdown.push(" ");
    markdown.push_escaped(variant.text.as_str());
}

/// Writes a text in all its languages, each on a line of its own.
fn push_words(words: Option<Words>, markdown: &mut Markdown) {
    let Some(Words::Variants { first, rest }) = words else {
        return;
    };
    markdown.begin_paragraph();
    if rest.is_empty() && first.code.as_str() == ENGLISH {
        markdown.push_escaped(first.text.as_str());
        return;
    }
    push_variant(&first, markdown);
    for variant in &rest {
        markdown.push("  \n");
        push_variant(variant, markdown);
    }
}
