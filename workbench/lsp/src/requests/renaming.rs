//! Another name for what is named at the cursor.

use super::{Outcome, Query, bad_params};
use crate::answers::{Answer, Renamed};
use crate::messages::{ErrorCode, ResponseError};
use edd_ide::{ProjectRenameError, RenameError};

/// Answers with the place of the name and the name so far, or `null` where nothing can be renamed.
pub(crate) fn prepare(query: &Query<'_>) -> Outcome {
    let byte = query.byte()?;
    let Some(place) = query.project().renameable(query.path(), byte) else {
        return Ok(Answer::Nothing);
    };
    Ok(Answer::Renamed(Renamed {
        range: query.view.range(place),
        placeholder: place.read(query.view.text().as_bytes()).to_owned(),
    }))
}

/// Answers with the edits that give it the new name.
pub(crate) fn rename(query: &Query<'_>) -> Outcome {
    let byte = query.byte()?;
    let Some(name) = &query.params.new_name else {
        return Err(bad_params("no new name is given"));
    };
    let project = query.project();
    let places = project.rename(query.path(), byte, name);
    let places = places.map_err(|error| refusal(query, name, error))?;
    Ok(Answer::Edit(query.view.replacements(&places, name)))
}

fn file_name(path: &str) -> &str {
    path.rsplit('/').next().unwrap_or(path)
}

/// Why it can't have the new name.
fn refusal(query: &Query<'_>, name: &str, error: ProjectRenameError<'_>) -> ResponseError {
    let ProjectRenameError { path, error } = error;
    let message = match error {
        RenameError::NothingHere => "nothing here has a name of its own".to_owned(),
        RenameError::NotAName => format!("{name} is no name"),
        RenameError::Reserved => format!("{name} is a reserved word"),
        RenameError::Clash(place) => {
            let other = query
                .view
                .others
                .view(path)
                .filter(|it| it.uri != query.view.uri);
            let view = other.unwrap_or(query.view);
            let line = view.range(place).start.line.saturating_add(1);
            let of_file = other.map_or_else(String::new, |_| format!(" of {}", file_name(path)));
            format!("{name} is declared already, on line {line}{of_file}")
        }
    };
    ResponseError::new(ErrorCode::RequestFailed, message)
}
