//! A version of a text, with what is known of it.

use crate::declarations::{Declaration, Sort};
use crate::paths::FileKind;
use crate::sheet::Sheet;
use crate::spots::{Place, Spot};
use crate::syntax::Syntax;
use crate::walk::Item;
use edd_check::{Levels, check};
use edd_lexer::token::{Token, TokenKind};
use edd_report::Report;
use edd_source::Span;
use edd_source::tokens::word_of;
use edd_syntax::symbols::{Keyword, Symbol};
use std::sync::OnceLock;
use std::thread::{self, ScopedJoinHandle};

/// A version of the text of a description, which may be unfinished or refused.
///
/// What its tokens are, what its names mean and what is wrong with it is found out when it is first
/// asked for, and kept. Places are bytes of the text; past its end they stand for the end.
///
/// ```
/// use edd_ide::Document;
///
/// let document = Document::new("VARIABLE p { TYPE INTEGER; } MENU m { ITEMS { p } }");
/// let used = document.text().rfind('p').unwrap();
/// let declared = document.declaration(used).unwrap();
/// assert_eq!(declared.range(), 9..10);
/// assert_eq!(document.references(used, false).len(), 1);
/// ```
#[derive(Debug)]
pub struct Document {
    path: String,
    text: String,
    syntax: OnceLock<Syntax>,
    report: OnceLock<Report>,
    sheet: OnceLock<Option<Sheet>>,
    image: OnceLock<Option<Vec<u8>>>,
}

/// How many bytes take longer to be looked at than a thread to be started.
const LONG: usize = 32_768;

/// What is past the end of the text.
const NOWHERE: Spot = Spot {
    place: Place::Other,
    open: None,
    is_in_parentheses: false,
};

impl Document {
    /// A version of a text.
    pub fn new(text: impl Into<String>) -> Document {
        Document::named("", text)
    }

    /// A version of the text of a file. One whose name ends with `.test` or `.script` is no description
    /// and has no tokens: a [`Project`](crate::Project) says what its names mean.
    pub fn named(path: &str, text: impl Into<String>) -> Document {
        Document {
            path: path.to_owned(),
            text: text.into(),
            syntax: OnceLock::new(),
            report: OnceLock::new(),
            sheet: OnceLock::new(),
            image: OnceLock::new(),
        }
    }

    /// Whether it is a description, and no file of tests and no script.
    pub fn is_description(&self) -> bool {
        FileKind::of(&self.path) == FileKind::Description
    }

    /// The text.
    pub fn text(&self) -> &str {
        &self.text
    }

    /// The text, to make the next version of it.
    pub fn into_text(self) -> String {
        self.text
    }

    /// What is wrong with the text: what `check` says of a description. Of a file of tests or a script
    /// a [`Project`](crate::Project) says that.
    pub fn report(&self) -> &Report {
        let check = || check(self.text.as_bytes(), &Levels::default());
        self.report.get_or_init(|| {
            if self.is_description() {
                check()
            } else {
                Report::default()
            }
        })
    }

    /// The image of a description that is accepted.
    pub(crate) fn image(&self) -> Option<&[u8]> {
        let compiled = || edd_run::compile(self.text.as_bytes()).ok();
        let image = self
            .image
            .get_or_init(|| compiled().filter(|_| self.is_description()));
        image.as_deref()
    }

    /// What a file of tests or a script names; none of a description.
    pub(crate) fn sheet(&self) -> Option<&Sheet> {
        let sheet = self.sheet.get_or_init(|| Sheet::of(&self.path, &self.text));
        sheet.as_ref()
    }

    /// Finds out what the tokens are and what the names mean, so that no later question waits for it.
    pub fn prepare(&self) {
        self.syntax();
        self.sheet();
    }

    /// Finds out what is wrong with a description, and all that [`prepare`](Document::prepare) does. For a
    /// long text a second thread does the one while this one does the other.
    pub fn examine(&self) {
        if LONG <= self.text.len() {
            thread::scope(|scope| {
                let prepared = thread::Builder::new().spawn_scoped(scope, || self.prepare());
                self.report();
                // If it failed, or none could be started, this thread tries below.
                let _ = prepared.map(ScopedJoinHandle::join);
            });
        }
        self.prepare();
        self.report();
    }

    /// The places of the names of the tests, in a file of tests.
    ///
    /// ```
    /// use edd_ide::Document;
    ///
    /// let document = Document::named("tank.test", "source tank.edd\ntest it is shown\nshow\n");
    /// let names: Vec<_> = document.tests().collect();
    /// assert_eq!(names[0].text(document.text()), Some("it is shown"));
    /// ```
    pub fn tests(&self) -> impl Iterator<Item = Span> {
        let tests = self.sheet().map_or(&[][..], |sheet| &sheet.tests);
        tests.iter().map(|test| test.name)
    }

    pub(crate) fn bytes(&self) -> &[u8] {
        self.text.as_bytes()
    }

    /// What the text's tokens are and mean. Of a line with a lexical fault what is before the fault
    /// is read; of a text of more than 1,048,576 bytes nothing.
    fn syntax(&self) -> &Syntax {
        let bytes = self.bytes();
        let bytes = if self.is_description() { bytes } else { &[] };
        self.syntax.get_or_init(|| Syntax::of(bytes))
    }

    pub(crate) fn tokens(&self) -> &[Token] {
        &self.syntax().tokens
    }

    /// The items, in their order.
    pub(crate) fn items(&self) -> &[Item] {
        &self.syntax().map.items
    }

    /// All that is declared: the items first, in their order.
    pub(crate) fn declarations(&self) -> &[Declaration] {
        &self.syntax().meanings.declarations.all
    }

    /// Of each token the declaration that it names or makes, by its place among the declarations.
    pub(crate) fn meanings(&self) -> &[Option<usize>] {
        &self.syntax().meanings.of_tokens
    }

    /// What the tokens would name if a declaration had another name wherever it is named.
    pub(crate) fn meanings_if_named(&self, declaration: usize, name: &str) -> Vec<Option<usize>> {
        let named = |token: usize| self.meaning(token) == Some(declaration);
        self.syntax().meanings_if_named(self.bytes(), named, name)
    }

    /// A token as it is written.
    pub(crate) fn word(&self, token: usize) -> &str {
        let token = self.tokens().get(token);
        token.map_or("", |token| word_of(self.bytes(), token))
    }

    /// What sort of token it is.
    pub(crate) fn kind(&self, token: usize) -> Option<TokenKind> {
        Some(self.tokens().get(token)?.kind)
    }

    /// The place of a token.
    pub(crate) fn span(&self, token: usize) -> Option<Span> {
        self.tokens().get(token).map(Span::of)
    }

    /// What is between a token and the one before it; the last gap is before the end of the text.
    pub(crate) fn gap_before(&self, token: usize) -> Span {
        let before = token.checked_sub(1).and_then(|before| self.span(before));
        Span {
            start: before.map_or(0, |span| span.end),
            end: self.span(token).map_or(self.text.len(), |span| span.start),
        }
    }

    /// What may stand at a token; past the last one at the end of the text.
    pub(crate) fn spot(&self, token: usize) -> Spot {
        let spots = &self.syntax().map.spots;
        spots.get(token).copied().unwrap_or(NOWHERE)
    }

    /// The first token that ends behind a byte.
    pub(crate) fn token_from(&self, byte: usize) -> usize {
        self.tokens()
            .partition_point(|token| Span::of(token).end <= byte)
    }

    /// The token at a byte, or else the one that ends there. A word that ends there comes before a
    /// token that is none.
    pub(crate) fn token_at(&self, byte: usize) -> Option<usize> {
        let next = self.token_from(byte);
        let begins_before = |token: &usize| self.span(*token).is_some_and(|it| it.start <= byte);
        let ends_there = |token: &usize| self.span(*token).is_some_and(|it| it.end == byte);
        let at = Some(next).filter(begins_before);
        let ending = next.checked_sub(1).filter(ends_there);
        match (at, ending) {
            (Some(at), Some(ending)) if !self.is_word(at) && self.is_word(ending) => Some(ending),
            (Some(at), _) => Some(at),
            (None, ending) => ending,
        }
    }

    /// Whether a token is a name or a reserved word.
    pub(crate) fn is_word(&self, token: usize) -> bool {
        matches!(
            self.kind(token),
            Some(TokenKind::Name | TokenKind::Keyword(_))
        )
    }

    /// Whether a token is this sign.
    pub(crate) fn is_sign(&self, token: usize, sign: Symbol) -> bool {
        self.kind(token) == Some(TokenKind::Symbol(sign))
    }

    /// Whether a token is this reserved word.
    pub(crate) fn is_keyword(&self, token: usize, word: Keyword) -> bool {
        self.kind(token) == Some(TokenKind::Keyword(word))
    }

    /// The declaration that a token names.
    pub(crate) fn meaning(&self, token: usize) -> Option<usize> {
        self.meanings().get(token).copied().flatten()
    }

    pub(crate) fn declared(&self, declaration: usize) -> Option<Declaration> {
        self.declarations().get(declaration).copied()
    }

    /// The first item that has the name of a token, by its place among the items.
    pub(crate) fn first_item(&self, token: usize) -> Option<usize> {
        let syntax = self.syntax();
        let number = syntax.words().number(token)?;
        syntax.meanings.declarations.item(number)
    }

    /// The item that a token names.
    pub(crate) fn item_named(&self, token: usize) -> Option<&Item> {
        match self.declared(self.meaning(token)?)?.sort {
            Sort::Item(item) => self.items().get(item),
            _ => None,
        }
    }

    /// The collection whose members a name before a `.` has, by its place among the items.
    pub(crate) fn collection_at(&self, token: usize) -> Option<usize> {
        self.syntax().collection_of(self.meaning(token)?)
    }

    /// The item that is named at a byte, by its place among the items.
    pub(crate) fn item_at(&self, byte: usize) -> Option<usize> {
        match self.declared(self.meaning(self.token_at(byte)?)?)?.sort {
            Sort::Item(item) => Some(item),
            _ => None,
        }
    }

    /// The first item of a name, by its place among the items.
    pub(crate) fn item_of(&self, name: &str) -> Option<usize> {
        self.items()
            .iter()
            .position(|item| self.word(item.name) == name)
    }

    /// The place of the name of an item, by its place among the items.
    pub(crate) fn name_of(&self, item: usize) -> Option<Span> {
        self.span(self.items().get(item)?.name)
    }

    /// The name of an item by its place among the items.
    pub(crate) fn item_name(&self, item: usize) -> &str {
        let item = self.items().get(item);
        item.map_or("", |item| self.word(item.name))
    }
}
