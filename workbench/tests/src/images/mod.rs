//! The calls on images. The head of each file lists its kinds of parts.

mod faults;
mod hosts;
mod instructions;
mod loading;
mod plain_sessions;
mod plain_steps;
mod session;
mod sessions;
mod small;
mod stepping;
mod steps;
mod suspensions;
mod using;
mod words;
mod worked;
mod writing;

pub(crate) use steps::steps_on;
pub(crate) use words::{number, reference_of};

use crate::playing::{NoAnswer, play_rows};
use crate::score::Score;
use crate::table::{Row, parts};

fn answer(kind: &str, row: &Row<'_>) -> Result<String, NoAnswer> {
    let (text, wanted) = (row.text.as_str(), row.wanted.as_str());
    match kind {
        "steps" => steps_on(&small::image_of(text)?, wanted),
        "plain_steps" => plain_steps::answers(text, wanted),
        "written" => writing::written(text),
        "decoded" => instructions::decoded(text),
        "encoded" => instructions::encoded(text),
        "loads" => loading::loaded(text),
        "edits" => loading::edited(text),
        "prefixes" => loading::prefixes(text),
        "counts" => loading::counts(text),
        "words" => loading::words(text),
        "faults" => faults::printed(text),
        "three_steps" => stepping::after_three(text),
        "driven" => sessions::driven(text),
        "resumed" => suspensions::resumed(text),
        "cut" => suspensions::cut(text),
        "changed" => suspensions::changed(text),
        _ => Err(NoAnswer::Kind),
    }
}

/// Plays the parts whose names contain all these words.
pub fn play(table: &str, only: &[String], score: &mut Score) {
    for part in parts(table).filter(|part| part.is_named(only)) {
        play_rows(&part, score, |row| answer(part.kind, row));
    }
}
