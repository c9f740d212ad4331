//! Differences as lines for a reader.

use crate::difference::{Change, Difference, Differences, Item, Value, What};
use edd_dump::core_format::quoted;
use std::fmt;

/// The differences below their items, and at the end their counts.
impl fmt::Display for Differences<'_> {
    fn fmt(&self, f: &mut fmt::Formatter<'_>) -> fmt::Result {
        for group in self.all().chunk_by(|one, next| one.item == next.item) {
            match group.first().and_then(|difference| difference.item) {
                Some(item) => writeln!(f, "{item}")?,
                None => writeln!(f, "identification")?,
            }
            for difference in group {
                writeln!(f, "{difference}")?;
            }
        }
        let breaking = self.all().iter().filter(|it| it.is_breaking()).count();
        writeln!(f, "differences {}, breaking {breaking}", self.all().len())
    }
}

/// A line, which begins with `!` for a breaking change.
impl fmt::Display for Difference<'_> {
    fn fmt(&self, f: &mut fmt::Formatter<'_>) -> fmt::Result {
        let mark = if self.is_breaking() { '!' } else { ' ' };
        write!(f, "{mark} {}{}", self.what, self.change)?;
        if !self.condition.is_empty() {
            write!(f, ", where {}", self.condition)?;
        }
        self.note
            .map_or(Ok(()), |note| write!(f, ", {}", note.word()))
    }
}

impl fmt::Display for Item<'_> {
    fn fmt(&self, f: &mut fmt::Formatter<'_>) -> fmt::Result {
        write!(f, "{} {}", self.kind.word(), self.name)?;
        self.last_name
            .map_or(Ok(()), |last| write!(f, " to {last}"))
    }
}

impl fmt::Display for What<'_> {
    fn fmt(&self, f: &mut fmt::Formatter<'_>) -> fmt::Result {
        f.write_str(self.word())?;
        match self {
            What::Transaction(_, position) => write!(f, "[{position}]"),
            What::Text(_, code) => write!(f, " {code}"),
            _ => Ok(()),
        }
    }
}

impl fmt::Display for Change<'_> {
    fn fmt(&self, f: &mut fmt::Formatter<'_>) -> fmt::Result {
        match self {
            Change::New(new) => write!(f, " new: {}", shown(new)),
            Change::Gone(old) => write!(f, " gone: {}", shown(old)),
            Change::Replaced { old, new } => write!(f, " {} -> {}", shown(old), shown(new)),
            Change::Unshown => Ok(()),
        }
    }
}

/// A value in a line, where texts are quoted.
fn shown(value: &Value<'_>) -> String {
    match value {
        Value::Text(text) => quoted(text),
        other => other.to_string(),
    }
}
