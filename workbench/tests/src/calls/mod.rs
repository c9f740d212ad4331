//! The calls that read a text and compile it, and those of an editor. The head of each file lists its kinds
//! of parts.

mod compiling;
mod json;
mod layouts;
mod lowering;
mod parsing;
mod shapes;
mod strings;
mod tokens;
mod warned;
mod widths;

use crate::editor;
use crate::playing::{NoAnswer, play_rows};
use crate::score::Score;
use crate::table::{Part, Row, parts, unescaped};
use std::fmt::{self, Display};

/// Returns the bytes that a text of the table stands for.
fn bytes_of(text: &str) -> Result<Vec<u8>, NoAnswer> {
    unescaped(text).ok_or(NoAnswer::Row("an escape without its end"))
}

/// Answers a row whose kind needs its text alone.
fn of_text(kind: &str, text: &str) -> Result<String, NoAnswer> {
    match kind {
        "tokens" => tokens::kinds(text),
        "places" => tokens::places(text),
        "lengths" => tokens::length(text),
        "layouts" => layouts::layout(text),
        "texts" => Ok(parsing::answer(text)),
        "items" => Ok(parsing::item_answer(text)),
        "nested" => Ok(parsing::nested(text)),
        "operators" => shapes::groups(text),
        "elses" => shapes::inner_else(text),
        "lists" => shapes::list(text),
        "splits" => strings::variants(text),
        "numbered" => strings::numbers(text),
        "widths" => widths::kept(text),
        "units" => compiling::unit(text),
        "rows" => compiling::rows(text),
        "elements" => compiling::elements(text),
        "warnings" => warned::warnings_of_items(text),
        "messages" => warned::first_message(text),
        "lints" => Ok(warned::lint(text)),
        "many" => json::many(text),
        _ => Err(NoAnswer::Kind),
    }
}

fn answer(kind: &str, row: &Row<'_>) -> Result<String, NoAnswer> {
    let (text, wanted) = (row.text.as_str(), row.wanted.as_str());
    match kind {
        "repeated" => parsing::repeated(row.asked, text),
        "choices" => strings::choice(row.asked, text),
        "bodies" => warned::warnings_of_body(row.asked, text),
        "body_messages" => warned::message_of_body(row.asked, text),
        "steps" => compiling::steps(text, wanted),
        "lowered" => lowering::lowered(row.asked, text, wanted),
        "json" => json::parts(row.asked, text, wanted),
        _ => of_text(kind, text),
    }
}

/// How much of a table was played.
#[derive(Debug, Default)]
struct Played {
    rows: usize,
    queries: usize,
    conversations: usize,
    damaged: usize,
}

impl Played {
    fn add(&mut self, part: &Part<'_>, score: &mut Score) {
        let (count, played) = match part.kind {
            "utf-8" | "utf-16" | "-" => {
                editor::converse(part, score);
                (&mut self.conversations, 1)
            }
            "damaged" => {
                editor::damage(part, score);
                (&mut self.damaged, 1)
            }
            "queries" => (&mut self.queries, play_rows(part, score, editor::answer)),
            kind => (
                &mut self.rows,
                play_rows(part, score, |row| answer(kind, row)),
            ),
        };
        *count = count.saturating_add(played);
    }
}

impl Display for Played {
    fn fmt(&self, formatter: &mut fmt::Formatter<'_>) -> fmt::Result {
        let Played {
            rows,
            queries,
            conversations,
            damaged,
        } = self;
        write!(formatter, "rows {rows}, queries {queries}, ")?;
        write!(
            formatter,
            "conversations {conversations}, damaged texts {damaged}"
        )
    }
}

/// Plays the parts whose names contain all these words, and notes how much was played.
pub fn play(table: &str, only: &[String], score: &mut Score) {
    let mut played = Played::default();
    for part in parts(table).filter(|part| part.is_named(only)) {
        played.add(&part, score);
    }
    score.note(played);
}
