//! What is wrong, and edits that mend it.

use super::{Outcome, Query};
use crate::answers::{Answer, CodeAction, DiagnosticReport};
use crate::client::{FIX_ALL, QUICK_FIX};
use edd_source::Span;

/// Answers with the edits that mend what is wrong there, and the one that mends all.
pub(crate) fn actions(query: &Query<'_>) -> Outcome {
    let asked = query.span()?;
    let context = &query.params.context;
    let mut actions = Vec::new();
    if !query.document().is_description() {
        let is_asked = context.asks_for(QUICK_FIX);
        let fixes = is_asked.then(|| fixes_of_names(query, asked));
        return Ok(Answer::Actions(fixes.unwrap_or_default()));
    }
    if context.asks_for(QUICK_FIX) {
        actions.extend(quick_fixes(query, asked));
    }
    // It has work that most requests for actions have no use for.
    if context.names(FIX_ALL) {
        actions.extend(fix_all(query));
    }
    Ok(Answer::Actions(actions))
}

fn quick_fixes(query: &Query<'_>, asked: Span) -> impl Iterator<Item = CodeAction> {
    let view = query.view;
    let fixes = query.document().quick_fixes(asked).into_iter();
    fixes.map(move |found| CodeAction {
        title: found.title,
        kind: QUICK_FIX,
        diagnostics: vec![view.diagnostic(found.diagnostic)],
        edit: view.fix(&found.fix),
    })
}

/// The edits that put near names in the places of unknown ones in a file of tests or a script.
fn fixes_of_names(query: &Query<'_>, asked: Span) -> Vec<CodeAction> {
    let view = query.view;
    let found = query.project().findings(query.path());
    let is_there = |span: Span| span.start <= asked.end && asked.start <= span.end;
    let there = found.iter().filter(|it| it.span.is_some_and(is_there));
    let actions = there.flat_map(|found| {
        let helps = found.helps.iter();
        helps.filter_map(move |help| {
            Some(CodeAction {
                title: help.advice.to_string(),
                kind: QUICK_FIX,
                diagnostics: vec![view.diagnostic(found)],
                edit: view.fix(help.fix.as_ref()?),
            })
        })
    });
    actions.collect()
}

fn fix_all(query: &Query<'_>) -> Option<CodeAction> {
    let fix = query.document().fix_all()?;
    Some(CodeAction {
        title: "apply all sure fixes".to_owned(),
        kind: FIX_ALL,
        diagnostics: Vec::new(),
        edit: query.view.fix(&fix),
    })
}

/// Answers with all that is wrong with the document.
pub(crate) fn diagnostics(query: &Query<'_>) -> Outcome {
    Ok(Answer::Report(DiagnosticReport {
        kind: "full",
        items: query.view.all_diagnostics(),
    }))
}
