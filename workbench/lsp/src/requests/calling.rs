//! Which methods, menus and tests name the one at the cursor, and which it names.

use super::outlining::{TEST_KIND, symbol_kind};
use super::{Outcome, Query};
use crate::answers::{Answer, CallItem, IncomingCall, OutgoingCall};
use crate::positions::Range;
use crate::view::View;
use edd_ide::{Call, Symbol, TestRun};
use edd_source::tokens::kind_word;

fn call_item(view: View<'_>, symbol: Symbol<'_>) -> CallItem {
    CallItem {
        name: symbol.name.to_owned(),
        kind: symbol_kind(symbol.kind),
        detail: kind_word(symbol.kind),
        uri: view.uri.to_owned(),
        range: view.range(symbol.span),
        selection_range: view.range(symbol.name_span),
    }
}

fn ranges(query: &Query<'_>, call: &Call<'_>) -> Vec<Range> {
    let places = call.places.iter();
    places.map(|place| query.view.range(*place)).collect()
}

/// Answers with the method or menu at the cursor, or `null`.
pub(crate) fn prepare(query: &Query<'_>) -> Outcome {
    let found = query.project().callable(query.path(), query.byte()?);
    let item = found.and_then(|(path, symbol)| {
        let view = query.view.others.view(path)?;
        Some(call_item(view, symbol))
    });
    Ok(item.map_or(Answer::Nothing, |item| Answer::CallItems(vec![item])))
}

/// A test that runs a method.
fn run_call(query: &Query<'_>, run: TestRun<'_>) -> Option<IncomingCall> {
    let view = query.view.others.view(run.test.path)?;
    let range = view.range(run.test.span);
    Some(IncomingCall {
        from: CallItem {
            name: run.test.span.text(view.text())?.to_owned(),
            kind: TEST_KIND,
            detail: "test",
            uri: view.uri.to_owned(),
            range,
            selection_range: range,
        },
        from_ranges: vec![view.range(run.method.span)],
    })
}

/// Answers with the methods and menus that name an item, and the tests that run it.
pub(crate) fn incoming(query: &Query<'_>) -> Outcome {
    let byte = query.byte()?;
    let calls = query.document().callers(byte).into_iter();
    let calls = calls.map(|call| IncomingCall {
        from_ranges: ranges(query, &call),
        from: call_item(query.view, call.item),
    });
    let runs = query.project().runs(query.path(), byte).into_iter();
    let runs = runs.filter_map(|run| run_call(query, run));
    Ok(Answer::Incoming(calls.chain(runs).collect()))
}

/// Answers with those that an item names.
pub(crate) fn outgoing(query: &Query<'_>) -> Outcome {
    let calls = query.document().callees(query.byte()?).into_iter();
    let calls = calls.map(|call| OutgoingCall {
        from_ranges: ranges(query, &call),
        to: call_item(query.view, call.item),
    });
    Ok(Answer::Outgoing(calls.collect()))
}
