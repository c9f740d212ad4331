//! What is told of a place.

use crate::Document;
use crate::comments::is_unread;
use crate::constant::{constant_around, value_told};
use crate::functions::{as_called, effect_of};
use crate::keyword_terms::{Section, meaning_of, section_of};
use crate::markdown::Markdown;
use crate::place_terms::meaning_at;
use edd_instructions::Sort;
use edd_lexer::token::TokenKind;
use edd_source::Span;
use edd_syntax::operators::Builtin;

/// What is told of a place.
#[derive(Clone, Debug, PartialEq, Eq)]
pub struct Hover {
    /// The bytes that it is about.
    pub span: Span,
    /// Text in Markdown; what the description says in it is escaped.
    pub markdown: String,
}

/// The page that tells of the language.
const PAGE: &str = "docs/LANGUAGE.md";

impl Document {
    /// What is told of a byte: of a name what the text says where it is declared, of a word or
    /// function of the language what it means, of an expression of numbers its value.
    ///
    /// ```
    /// use edd_ide::Document;
    ///
    /// let document = Document::new("VARIABLE p { LABEL \"Pressure\"; }");
    /// assert_eq!(document.hover(9).unwrap().markdown, "`VARIABLE p`\n\nPressure");
    /// assert!(document.hover(8).unwrap().markdown.starts_with("`VARIABLE`\n\nA value"));
    /// ```
    pub fn hover(&self, byte: usize) -> Option<Hover> {
        let token = self.token_at(byte)?;
        let span = self.span(token)?;
        if is_unread(self, byte) {
            return None;
        }
        let mut markdown = Markdown::default();
        let declaration = self.meaning(token);
        match declaration {
            Some(declaration) => self.describe(declaration, &mut markdown),
            None => self.push_token(token, &mut markdown),
        }
        match markdown.finish() {
            Some(markdown) => Some(Hover { span, markdown }),
            None if declaration.is_none() => self.hover_constant(token),
            None => None,
        }
    }

    /// Writes what is told of a token that names no declaration: of a word that means something in
    /// its place, or of a function.
    fn push_token(&self, token: usize, markdown: &mut Markdown) {
        let place = self.spot(token).place;
        let word = self.word(token);
        match (self.kind(token), meaning_at(place, word)) {
            (Some(TokenKind::Keyword(_) | TokenKind::Name), Some(meaning)) => {
                push_term(word, meaning, Section::Attributes, markdown);
            }
            (Some(TokenKind::Keyword(keyword)), None) => {
                push_term(word, meaning_of(keyword), section_of(keyword), markdown);
            }
            (Some(TokenKind::Name), None) if place.is_in_body() => {
                if let Some(function) = Builtin::named(word) {
                    let form = as_called(function);
                    push_term(&form, effect_of(function), Section::Methods, markdown);
                }
            }
            _ => {}
        }
    }

    /// What is told of the expression of numbers around a token.
    fn hover_constant(&self, token: usize) -> Option<Hover> {
        let span = constant_around(self, token)?;
        let sort = if self.spot(token).place.is_in_body() {
            Sort::Method
        } else {
            Sort::Attribute
        };
        let markdown = value_told(span.read(self.bytes()), sort)?;
        Some(Hover { span, markdown })
    }
}

/// Writes a word with its meaning, and where the page tells of it.
fn push_term(word: &str, meaning: &str, section: Section, markdown: &mut Markdown) {
    markdown.push(&format!("`{word}`"));
    markdown.begin_paragraph();
    markdown.push_escaped(meaning);
    markdown.begin_paragraph();
    markdown.push(&format!("{PAGE}, {}", section.heading()));
}
