//! What is told of the word at the cursor and of the call around it, and the document in its layout.

use super::{Outcome, Query};
use crate::answers::{
    Answer, Hover, Markup, ParameterInformation, ParameterLabel, SignatureHelp,
    SignatureInformation,
};
use edd_ide::Typed;
use edd_source::{Edit, Span};

/// Answers with what is told of the word at the cursor, or `null`.
pub(crate) fn hover(query: &Query<'_>) -> Outcome {
    let byte = query.byte()?;
    let Some(told) = query.project().hover(query.path(), byte) else {
        return Ok(Answer::Nothing);
    };
    Ok(Answer::Hover(Hover {
        contents: Markup {
            kind: "markdown",
            value: told.markdown,
        },
        range: query.view.range(told.span),
    }))
}

/// How many UTF-16 units come before a byte of a label.
fn units_before(label: &str, byte: usize) -> usize {
    let before = label.get(..byte).unwrap_or(label);
    before.chars().map(char::len_utf16).sum()
}

fn parameter(query: &Query<'_>, label: &str, place: Span) -> ParameterInformation {
    let label = if query.view.client.has_offsets {
        ParameterLabel::Offsets([
            units_before(label, place.start),
            units_before(label, place.end),
        ])
    } else {
        ParameterLabel::Text(place.read(label.as_bytes()).to_owned())
    };
    ParameterInformation { label }
}

/// Answers with what the function takes in whose arguments the cursor is, or `null`.
pub(crate) fn signature(query: &Query<'_>) -> Outcome {
    let Some(found) = query.document().signature(query.byte()?) else {
        return Ok(Answer::Nothing);
    };
    let places = found.parameters.iter();
    let parameters = places.map(|place| parameter(query, &found.label, *place));
    let signature = SignatureInformation {
        parameters: parameters.collect(),
        label: found.label,
    };
    Ok(Answer::Signatures(SignatureHelp {
        signatures: vec![signature],
        active_signature: 0,
        active_parameter: found.active,
    }))
}

/// Answers with the edits of the blanks that give the text its layout; with none where it is laid out
/// already, or has no tokens.
pub(crate) fn format(query: &Query<'_>) -> Outcome {
    Ok(edits(query, query.document().format_edits()))
}

/// Answers with those of the edits that lie in a range.
pub(crate) fn format_range(query: &Query<'_>) -> Outcome {
    let asked = query.span()?;
    Ok(edits(query, query.document().format_edits_in(asked)))
}

/// Answers with the edits of the lines that a typed character ends.
pub(crate) fn format_typed(query: &Query<'_>) -> Outcome {
    let byte = query.byte()?;
    let typed = Typed::from_text(&query.params.ch);
    let found = typed.map(|typed| query.document().format_edits_typed(byte, typed));
    Ok(edits(query, found.unwrap_or_default()))
}

fn edits(query: &Query<'_>, edits: Vec<Edit>) -> Answer {
    let edits = edits.into_iter();
    Answer::Edits(
        edits
            .map(|edit| query.view.edit(edit.span, edit.text))
            .collect(),
    )
}
