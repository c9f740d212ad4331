//! A source with all that its traces need.

use crate::cursor::{TokenIndex, index_of};
use core_std::alloc::Global;
use core_std::vec::Vec as CoreVec;
use edd_compiler::{Fault, checked_from, image_from, tokens_of, unit_from};
use edd_lexer::token::Token;
use edd_run::RunError;
use edd_source::Span;
use edd_syntax::checked::Checked;
use edd_syntax::item::{Attribute, Item, ItemKind};
use edd_syntax::numbers::MethNo;
use edd_syntax::reference::{Path, Target};
use edd_syntax::stmt::Part;
use edd_syntax::unit::Unit;
use std::fmt;

/// A source, its image, and the tokens and trees that the places of a trace come from.
pub struct Description<'t> {
    text: &'t [u8],
    tokens: CoreVec<Token>,
    unit: Unit,
    checked: Checked,
    image: Vec<u8>,
}

/// The body of a method, and the word DEFINITION before it.
pub(crate) struct Body<'d, R> {
    pub(crate) word: TokenIndex,
    pub(crate) parts: &'d [Part<R>],
}

impl<'t> Description<'t> {
    /// Compiles a source.
    ///
    /// # Errors
    ///
    /// The source is refused, or memory is.
    pub fn compile(text: &'t [u8]) -> Result<Description<'t>, RunError> {
        compile(text).map_err(|fault| to_refusal(&fault, text))
    }

    /// The image of the source.
    pub fn image(&self) -> &[u8] {
        &self.image
    }

    pub(crate) fn tokens(&self) -> &[Token] {
        &self.tokens
    }

    /// What stands at a place of the text.
    pub(crate) fn read(&self, place: Span) -> &'t str {
        place.read(self.text)
    }

    /// Where a token is in the text.
    pub(crate) fn span(&self, token: TokenIndex) -> Option<Span> {
        self.tokens.get(token).map(Span::of)
    }

    pub(crate) fn body(&self, method: MethNo) -> Option<Body<'_, Target>> {
        find_body(&self.checked.items, method)
    }

    /// The same body, whose references are names.
    pub(crate) fn named_body(&self, method: MethNo) -> Option<Body<'_, Path>> {
        find_body(&self.unit.items, method)
    }

    /// The name of a method where it is declared.
    pub(crate) fn method_name(&self, method: MethNo) -> Option<TokenIndex> {
        let item = find_method(&self.checked.items, method)?;
        Some(index_of(item.at()))
    }
}

fn find_method<R>(items: &[Item<R>], number: MethNo) -> Option<&Item<R>> {
    let mut methods = items.iter().filter(|item| item.sort == ItemKind::Method);
    methods.nth(usize::from(number.0))
}

fn find_body<R>(items: &[Item<R>], method: MethNo) -> Option<Body<'_, R>> {
    let attributes = find_method(items, method)?.attributes();
    attributes.iter().find_map(|attribute| match attribute {
        Attribute::Definition(at, parts) => Some(Body {
            word: index_of(*at),
            parts,
        }),
        _ => None,
    })
}

impl fmt::Debug for Description<'_> {
    fn fmt(&self, f: &mut fmt::Formatter<'_>) -> fmt::Result {
        f.debug_struct("Description").finish_non_exhaustive()
    }
}

fn compile(text: &[u8]) -> Result<Description<'_>, Fault> {
    let tokens = tokens_of(Global, text)?;
    let unit = unit_from(Global, text, &tokens)?;
    let checked = checked_from(Global, &unit)?;
    let image = image_from(Global, &checked)?.into_real();
    Ok(Description {
        text,
        tokens,
        unit,
        checked,
        image,
    })
}

fn to_refusal(fault: &Fault, text: &[u8]) -> RunError {
    if matches!(fault, Fault::Memory) {
        return RunError::Memory;
    }
    match fault.refusal(Global, text) {
        Ok(refusal) => RunError::Source(refusal.as_str().to_owned()),
        Err(error) => error.into(),
    }
}
