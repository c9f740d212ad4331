//! What is selected around a place, and what is shown beside numbers.

use super::{Outcome, Query};
use crate::answers::{Answer, InlayHint, SelectionRange};
use crate::positions::Position;

/// Answers with the spans around each position.
pub(crate) fn selections(query: &Query<'_>) -> Outcome {
    let positions = query.params.positions.iter();
    let selections = positions.filter_map(|position| around(query, *position));
    Ok(Answer::Selections(selections.collect()))
}

fn around(query: &Query<'_>, position: Position) -> Option<SelectionRange> {
    let spans = query.document().selections(query.view.byte(position));
    spans.into_iter().rev().fold(None, |parent, span| {
        Some(SelectionRange {
            range: query.view.range(span),
            parent: parent.map(Box::new),
        })
    })
}

/// Answers with what is shown behind the numbers of a range.
pub(crate) fn hints(query: &Query<'_>) -> Outcome {
    let hints = query.document().inlay_hints(query.span()?).into_iter();
    let hints = hints.map(|hint| InlayHint {
        position: query.view.position(hint.place),
        label: hint.label,
        padding_left: true,
    });
    Ok(Answer::Hints(hints.collect()))
}
