//! The files that a preprocessor has read, as far as they can be read again.

use crate::Origin;

/// The longest line that is shown, in bytes.
const LONGEST: usize = 400;

/// Such files by their names.
#[derive(Clone, Debug, Default)]
pub struct Originals(Vec<(String, Vec<u8>)>);

impl Originals {
    /// Adds a file that could be read.
    pub fn add(&mut self, name: &str, text: Vec<u8>) {
        self.0.push((name.to_owned(), text));
    }

    /// The line of a file that a mark leads to.
    pub fn line(&self, origin: Origin<'_>) -> Option<&str> {
        let name = origin.file?;
        let (_, text) = self.0.iter().find(|(other, _)| other == name)?;
        line_in(text, origin.line)
    }
}

// A line, counted from 1, without its end; nothing where it is long, no text or not there.
fn line_in(text: &[u8], number: usize) -> Option<&str> {
    let mut lines = text.split_inclusive(|byte| *byte == b'\n');
    let line = str::from_utf8(lines.nth(number.checked_sub(1)?)?).ok()?;
    let line = line.strip_suffix('\n').unwrap_or(line);
    let line = line.strip_suffix('\r').unwrap_or(line);
    (line.len() <= LONGEST).then_some(line)
}
