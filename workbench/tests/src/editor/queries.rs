//! Queries of an editor on texts, with a `$` where each is asked.

use super::answered::{At, Query};
use crate::playing::NoAnswer;
use crate::table::Row;
use edd_ide::Document;

/// Answers a query.
pub fn answer(row: &Row<'_>) -> Result<String, NoAnswer> {
    let query = Query::parse(row.asked).ok_or(NoAnswer::Row("no such query"))?;
    let halves = row.text.split_once('$');
    let (before, after) = halves.unwrap_or((row.text.as_str(), ""));
    let document = Document::new([before, after].concat());
    let at = At {
        document: &document,
        byte: before.len(),
    };
    Ok(at.answer(query))
}
