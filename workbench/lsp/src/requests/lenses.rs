//! What can be clicked above lines. The editor does it, by commands of its own.

use super::{Outcome, Query};
use crate::answers::{Answer, CodeLens, Command};
use edd_ide::{Kind, Symbol};
use edd_source::Span;

/// Runs a method of a description.
const RUN_METHOD: &str = "edd.runMethod";

/// Opens the instrument that a description is.
const OPEN_INSTRUMENT: &str = "edd.openInstrument";

/// Runs a test of a file of tests.
const RUN_TEST: &str = "edd.runTest";

fn lens(
    query: &Query<'_>,
    span: Span,
    title: &'static str,
    command: &'static str,
    name: Option<&str>,
) -> CodeLens {
    let uri = query.view.uri.to_owned();
    CodeLens {
        range: query.view.range(span),
        command: Command {
            title,
            command,
            arguments: std::iter::once(uri)
                .chain(name.map(str::to_owned))
                .collect(),
        },
    }
}

/// Answers with a lens for each test; of a description with one that opens the instrument, and one for
/// each method that runs it. A device runs with its instrument alone.
pub(crate) fn lenses(query: &Query<'_>) -> Outcome {
    let document = query.document();
    let tests = document.tests().map(|name| {
        let word = name.text(document.text());
        lens(query, name, "Test", RUN_TEST, word)
    });
    if !document.is_description() || query.project().is_device(query.path()) {
        return Ok(Answer::Lenses(tests.collect()));
    }
    let symbols = document.symbols().into_iter();
    let is_method = |symbol: &Symbol<'_>| symbol.kind == Kind::Method;
    let methods = symbols.filter(is_method).map(|method| {
        lens(
            query,
            method.name_span,
            "Run",
            RUN_METHOD,
            Some(method.name),
        )
    });
    let opens = lens(
        query,
        Span::before(0),
        "Open instrument",
        OPEN_INSTRUMENT,
        None,
    );
    Ok(Answer::Lenses(
        std::iter::once(opens).chain(methods).collect(),
    ))
}
