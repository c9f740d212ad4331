//! Differences as JSON: an object on a line for each.

use crate::difference::{Difference, Differences, Note, Value, What};
use serde::Serialize;

/// A difference as an object, with `null` for what does not apply.
#[derive(Serialize)]
struct Object<'d> {
    kind: Option<&'static str>,
    name: Option<&'d str>,
    last_name: Option<&'d str>,
    what: &'static str,
    transaction: Option<u16>,
    language: Option<&'d str>,
    condition: Option<&'d str>,
    old: Option<String>,
    new: Option<String>,
    note: Option<&'static str>,
    breaking: bool,
}

impl<'d> From<&'d Difference<'_>> for Object<'d> {
    fn from(of: &'d Difference<'_>) -> Object<'d> {
        let (transaction, language) = match of.what {
            What::Transaction(_, position) => (Some(position), None),
            What::Text(_, code) => (None, Some(code)),
            _ => (None, None),
        };
        Object {
            kind: of.item.map(|item| item.kind.word()),
            name: of.item.map(|item| item.name),
            last_name: of.item.and_then(|item| item.last_name),
            what: of.what.word(),
            transaction,
            language,
            condition: Some(of.condition.as_str()).filter(|condition| !condition.is_empty()),
            old: of.change.old_value().map(Value::to_string),
            new: of.change.new_value().map(Value::to_string),
            note: of.note.map(Note::word),
            breaking: of.is_breaking(),
        }
    }
}

impl Differences<'_> {
    /// An object of JSON on a line for each difference.
    ///
    /// # Errors
    ///
    /// None is known: a struct of strings, numbers and booleans can always be serialized.
    pub fn to_json_lines(&self) -> serde_json::Result<String> {
        let mut lines = String::new();
        for difference in self.all() {
            lines.push_str(&serde_json::to_string(&Object::from(difference))?);
            lines.push('\n');
        }
        Ok(lines)
    }
}
