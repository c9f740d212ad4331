//! What each word of a document is, for its colours.

use super::{Outcome, Query};
use crate::answers::Answer;
use crate::positions::Position;
use crate::view::View;
use edd_ide::{Kind, SemanticToken, TokenClass};
use edd_source::Span;

/// The types of words, by their numbers.
pub(crate) const TOKEN_TYPES: [&str; 15] = [
    "comment",
    "keyword",
    "number",
    "string",
    "type",
    "enumMember",
    "function",
    "property",
    "parameter",
    "variable",
    "event",
    "namespace",
    "struct",
    "method",
    "class",
];

/// The number of a type.
fn type_number(class: TokenClass) -> usize {
    match class {
        TokenClass::Comment => 0,
        TokenClass::Keyword => 1,
        TokenClass::Number => 2,
        TokenClass::String => 3,
        TokenClass::Type => 4,
        TokenClass::Value => 5,
        TokenClass::Function => 6,
        TokenClass::Member => 7,
        TokenClass::Local => 8,
        TokenClass::Item(Kind::Variable) => 9,
        TokenClass::Item(Kind::Command) => 10,
        TokenClass::Item(Kind::Menu) => 11,
        TokenClass::Item(Kind::Collection) => 12,
        TokenClass::Item(Kind::Method) => 13,
        TokenClass::Item(Kind::Array) => 14,
    }
}

/// The lines of a span, without what ends them.
fn lines_of(view: View<'_>, span: Span) -> impl Iterator<Item = Span> {
    let text = span.text(view.text()).unwrap_or_default();
    let mut start = span.start;
    text.split_inclusive('\n').map(move |line| {
        let end = start.saturating_add(line.trim_end_matches(['\r', '\n']).len());
        let written = Span { start, end };
        start = start.saturating_add(line.len());
        written
    })
}

/// Answers with each word as the protocol codes it: by its distance from the one before.
pub(crate) fn tokens(query: &Query<'_>) -> Outcome {
    let data = token_data(query);
    let sent = &query.view.open.sent_tokens;
    Ok(Answer::Tokens(sent.send_all(data)))
}

/// Answers with what has changed since an earlier answer, or with all words where the last one was
/// another.
pub(crate) fn changed_tokens(query: &Query<'_>) -> Outcome {
    let data = token_data(query);
    let sent = &query.view.open.sent_tokens;
    Ok(
        match sent.send_changes(&query.params.previous_result_id, &data) {
            Some(changed) => Answer::ChangedTokens(changed),
            None => Answer::Tokens(sent.send_all(data)),
        },
    )
}

fn token_data(query: &Query<'_>) -> Vec<usize> {
    let view = query.view;
    let mut data = Vec::new();
    let mut before = Position {
        line: 0,
        character: 0,
    };
    for token in query.document().semantic_tokens() {
        for span in lines_of(view, token.span).filter(|span| !span.is_empty()) {
            push_token(view, &token, span, &mut before, &mut data);
        }
    }
    data
}

fn push_token(
    view: View<'_>,
    token: &SemanticToken,
    span: Span,
    before: &mut Position,
    data: &mut Vec<usize>,
) {
    let range = view.range(span);
    let lines = range.start.line.saturating_sub(before.line);
    let column = if lines == 0 { before.character } else { 0 };
    data.extend([
        lines,
        range.start.character.saturating_sub(column),
        range.end.character.saturating_sub(range.start.character),
        type_number(token.class),
        usize::from(token.is_declaration),
    ]);
    *before = range.start;
}
