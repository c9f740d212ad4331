//! Where what is named at the cursor is declared, and where it is named.

use super::{Outcome, Query};
use crate::answers::{Answer, Highlight};

/// Answers with the place of the declaration, or `null`.
pub(crate) fn definition(query: &Query<'_>) -> Outcome {
    let byte = query.byte()?;
    let place = query.project().declaration(query.path(), byte);
    let found = query.view.locations(place.as_slice()).into_iter().next();
    Ok(found.map_or(Answer::Nothing, Answer::Location))
}

/// Answers with all places where it is named.
pub(crate) fn references(query: &Query<'_>) -> Outcome {
    let declared = query.params.context.include_declaration;
    let byte = query.byte()?;
    let places = query.project().references(query.path(), byte, declared);
    Ok(Answer::Locations(query.view.locations(&places)))
}

/// Answers with the same places, the declaration too, to be shown in the text.
pub(crate) fn highlights(query: &Query<'_>) -> Outcome {
    let byte = query.byte()?;
    let places = query.project().references(query.path(), byte, true);
    let own = places.iter().filter(|place| place.path == query.path());
    let highlights = own.map(|place| Highlight {
        range: query.view.range(place.span),
    });
    Ok(Answer::Highlights(highlights.collect()))
}
