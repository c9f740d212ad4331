//! Asks everything at every byte of a text, and around the end of each of its prefixes.

use super::answered::{At, Query};
use edd_ide::{Document, Span};
use std::fmt::{self, Display};

const TEXT: &str =
    "\u{feff}VARIABLE a { LABEL \"|en|\u{e4}\"; TYPE INTEGER (2) { MIN_VALUE 1; } }
COLLECTION OF VARIABLE c { MEMBERS { x, a; } } /* \u{20ac} */ ARRAY OF VARIABLE r { ELEMENTS { 1, a; } }
MENU m { ITEMS { c.x (HIDDEN), a } } // end
METHOD n { DEFINITION { int k = 1; { int l; l = r[1] + c.x; } DELAY(k, \"a\"); } }
@\"";

const QUERIES: [Query<'static>; 19] = [
    Query::Hover,
    Query::Declaration,
    Query::References,
    Query::Uses,
    Query::Renameable,
    Query::Rename("a"),
    Query::Symbols,
    Query::Folds,
    Query::Labels,
    Query::Details,
    Query::Signature,
    Query::Tokens,
    Query::Selections,
    Query::Hints,
    Query::Edits,
    Query::Snippet,
    Query::Documentation,
    Query::Typed,
    Query::FixAll,
];

/// An answer with a place outside of the text.
#[derive(Debug, Clone, Copy, PartialEq, Eq)]
pub struct Outside {
    length: usize,
    asked: usize,
    place: Span,
}

impl Display for Outside {
    fn fmt(&self, formatter: &mut fmt::Formatter<'_>) -> fmt::Result {
        let Outside {
            length,
            asked,
            place: Span { start, end },
        } = self;
        write!(
            formatter,
            "  {start}-{end} is answered at {asked} of {length} bytes"
        )
    }
}

/// Returns all places that are answered at a byte.
fn places(At { document, byte }: At<'_>) -> Vec<Span> {
    let symbols = document.symbols().into_iter().map(|symbol| symbol.span);
    let folds = document.folds().into_iter();
    let mut places = document.references(byte, true);
    places.extend(symbols);
    places.extend(folds.flat_map(|fold| [fold.start, fold.end]));
    places.extend(document.hover(byte).map(|told| told.span));
    places.extend(document.declaration(byte));
    places.extend(document.selections(byte));
    places.extend(document.semantic_tokens().into_iter().map(|it| it.span));
    places.extend(document.format_edits().into_iter().map(|it| it.span));
    places
}

/// Asks everything at a byte, and returns the first place outside of the text.
fn outside(at: At<'_>) -> Option<Outside> {
    for query in QUERIES {
        at.answer(query);
    }
    let length = at.document.text().len();
    let is_inside = |place: &Span| place.start <= place.end && place.end <= length;
    let place = places(at).into_iter().find(|place| !is_inside(place))?;
    Some(Outside {
        length,
        asked: at.byte,
        place,
    })
}

/// Asks everything at these bytes of a text, and returns the first place outside of it.
fn outside_at(text: &str, bytes: impl IntoIterator<Item = usize>) -> Option<Outside> {
    let document = Document::new(text);
    bytes.into_iter().find_map(|byte| {
        outside(At {
            document: &document,
            byte,
        })
    })
}

/// Asks everything of the text and of its prefixes, and returns the first place outside of them.
pub fn outside_of_damaged() -> Option<Outside> {
    let prefixes = TEXT.char_indices().map(|(end, _)| end).find_map(|end| {
        let text = TEXT.get(..end).unwrap_or_default();
        let around = [
            end,
            end.saturating_sub(1),
            end.saturating_add(1),
            usize::MAX,
        ];
        outside_at(text, around)
    });
    outside_at(TEXT, 0..TEXT.len()).or(prefixes)
}
