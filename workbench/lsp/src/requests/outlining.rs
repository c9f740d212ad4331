//! What a document declares, and which of its lines may be hidden.

use super::{Outcome, Query};
use crate::answers::{Answer, DocumentSymbol, FoldingRange, SymbolInformation};
use crate::view::View;
use edd_ide::{Fold, Kind};
use edd_source::tokens::kind_word;

/// A kind of item as the protocol counts kinds of symbols.
pub(super) fn symbol_kind(kind: Kind) -> u8 {
    match kind {
        Kind::Variable => 13,
        Kind::Command => 24,
        Kind::Menu => 2,
        Kind::Collection => 23,
        Kind::Method => 6,
        Kind::Array => 18,
    }
}

/// The kind of a test as the protocol counts kinds of symbols: a function.
pub(super) const TEST_KIND: u8 = 12;

/// The tests of the document, for a client that shows a tree or a list.
fn tests(query: &Query<'_>) -> Answer {
    let view = query.view;
    let tests = query.document().tests();
    let tests = tests.map(|span| (span, span.text(view.text()).unwrap_or_default().to_owned()));
    if view.client.has_tree {
        let outline = tests.map(|(span, name)| DocumentSymbol {
            name,
            detail: "test",
            kind: TEST_KIND,
            range: view.range(span),
            selection_range: view.range(span),
        });
        return Answer::Outline(outline.collect());
    }
    let list = tests.map(|(span, name)| SymbolInformation {
        name,
        kind: TEST_KIND,
        location: view.location(span),
    });
    Answer::Symbols(list.collect())
}

/// Answers with the items of the document, or with its tests, in order.
pub(crate) fn symbols(query: &Query<'_>) -> Outcome {
    if !query.document().is_description() {
        return Ok(tests(query));
    }
    let symbols = query.document().symbols().into_iter();
    if query.view.client.has_tree {
        let outline = symbols.map(|symbol| DocumentSymbol {
            name: symbol.name.to_owned(),
            detail: kind_word(symbol.kind),
            kind: symbol_kind(symbol.kind),
            range: query.view.range(symbol.span),
            selection_range: query.view.range(symbol.name_span),
        });
        return Ok(Answer::Outline(outline.collect()));
    }
    let list = symbols.map(|symbol| SymbolInformation {
        name: symbol.name.to_owned(),
        kind: symbol_kind(symbol.kind),
        location: query.view.location(symbol.span),
    });
    Ok(Answer::Symbols(list.collect()))
}

/// Answers with the items of all documents whose names have a text in them, small and large letters
/// alike.
pub(crate) fn workspace_symbols<'a>(views: impl Iterator<Item = View<'a>>, wanted: &str) -> Answer {
    let wanted = wanted.to_ascii_lowercase();
    let symbols = views.flat_map(|view| {
        let symbols = view.open.document.symbols().into_iter();
        symbols.map(move |symbol| (view, symbol))
    });
    let fitting = symbols.filter(|(_, it)| it.name.to_ascii_lowercase().contains(&wanted));
    let list = fitting.map(|(view, symbol)| SymbolInformation {
        name: symbol.name.to_owned(),
        kind: symbol_kind(symbol.kind),
        location: view.location(symbol.span),
    });
    Answer::Symbols(list.collect())
}

/// The lines below the first one; of braces without the line of the closing one.
fn lines_of(query: &Query<'_>, fold: &Fold) -> FoldingRange {
    let last = query.view.range(fold.end).end.line;
    FoldingRange {
        start_line: query.view.range(fold.start).start.line,
        end_line: if fold.is_comment {
            last
        } else {
            last.saturating_sub(1)
        },
        kind: fold.is_comment.then_some("comment"),
    }
}

/// Answers with the lines that may be hidden.
pub(crate) fn folds(query: &Query<'_>) -> Outcome {
    let folds = query.document().folds();
    let lines = folds.iter().map(|fold| lines_of(query, fold));
    let several = lines.filter(|lines| lines.start_line < lines.end_line);
    Ok(Answer::Folds(several.collect()))
}
