//! What may be written at the cursor.

use super::{Outcome, Query};
use crate::answers::{Answer, CompletionItem, CompletionList};
use edd_ide::{CompletionKind, Kind};

/// An edit that is a snippet, as the protocol counts the forms of texts.
const SNIPPET: u8 = 2;

/// A kind of completion as the protocol counts them.
fn kind_number(kind: CompletionKind) -> u8 {
    match kind {
        CompletionKind::Item(Kind::Variable) | CompletionKind::Local => 6,
        CompletionKind::Item(Kind::Command) => 23,
        CompletionKind::Item(Kind::Menu) => 9,
        CompletionKind::Item(Kind::Collection) => 22,
        CompletionKind::Item(Kind::Method) => 2,
        CompletionKind::Item(Kind::Array) => 18,
        CompletionKind::Member => 5,
        CompletionKind::Builtin => 3,
        CompletionKind::Attribute => 10,
        CompletionKind::Keyword => 14,
        CompletionKind::Value => 20,
    }
}

/// Answers with all that may be written there, in the order of the queries.
pub(crate) fn completions(query: &Query<'_>) -> Outcome {
    let byte = query.byte()?;
    let found = if query.document().is_description() {
        query.document().completions(byte)
    } else {
        query.project().completions(query.path(), byte)
    };
    let entries = found.entries.into_iter().enumerate();
    let has_snippets = query.view.client.has_snippets;
    let items = entries.map(|(number, entry)| {
        let snippet = entry.snippet.filter(|_| has_snippets);
        CompletionItem {
            label: entry.label.to_owned(),
            kind: kind_number(entry.kind),
            detail: Some(entry.detail).filter(|detail| !detail.is_empty()),
            documentation: Some(entry.documentation.into_owned()).filter(|it| !it.is_empty()),
            sort_text: format!("{number:06}"),
            insert_text_format: snippet.is_some().then_some(SNIPPET),
            text_edit: query
                .view
                .edit(found.replaced, snippet.as_deref().unwrap_or(entry.label)),
        }
    });
    Ok(Answer::Completions(CompletionList {
        is_incomplete: false,
        items: items.collect(),
    }))
}
