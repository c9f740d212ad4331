//! The marks that a preprocessor leaves behind, which say from which file and line the text after
//! them is: `# 12 "file"` and `#line 12 "file"`.

use crate::Span;
use crate::lines::span_of_line;

/// Where a line of a text is from.
#[derive(Clone, Copy, Debug, PartialEq, Eq)]
pub struct Origin<'a> {
    /// The file, where the marks name one.
    pub file: Option<&'a str>,
    /// The line, counted from 1.
    pub line: usize,
}

/// A mark, and what it says of the line after it.
#[derive(Clone, Copy, Debug)]
struct Mark<'a> {
    /// The line of the mark, counted from 0.
    line: usize,
    /// The number that the line after it has in its file.
    number: usize,
    /// The file that this mark or one before it has named.
    file: Option<&'a str>,
}

/// The marks of a text.
#[derive(Clone, Debug)]
pub(crate) struct Marks<'a>(Vec<Mark<'a>>);

/// What a byte of a text is in.
#[derive(Clone, Copy)]
enum Inside {
    Code,
    LineComment,
    Comment,
    String,
}

impl Inside {
    // What the text after two bytes is in.
    fn after(self, before: u8, byte: u8) -> Inside {
        match (self, before, byte) {
            (Inside::Code, b'/', b'/') => Inside::LineComment,
            (Inside::Code, b'/', b'*') => Inside::Comment,
            (Inside::Code, _, b'"') => Inside::String,
            (Inside::LineComment, _, b'\n') => Inside::Code,
            (Inside::Comment, b'*', b'/') => Inside::Code,
            (Inside::String, b'\\', _) => Inside::String,
            (Inside::String, _, b'"') => Inside::Code,
            (other, _, _) => other,
        }
    }
}

impl<'a> Marks<'a> {
    /// The marks of a text whose lines begin at these places.
    pub(crate) fn of(text: &'a [u8], starts: &[usize]) -> Marks<'a> {
        let mut marks = Vec::new();
        if !text.contains(&b'#') {
            return Marks(marks);
        }
        let (mut inside, mut before, mut line) = (Inside::Code, 0, 0_usize);
        for (place, byte) in text.iter().copied().enumerate() {
            if byte == b'#' && matches!(inside, Inside::Code) {
                let file = marks.last().and_then(|mark: &Mark<'a>| mark.file);
                marks.extend(mark_at(text, starts, line, place, file));
            }
            inside = inside.after(before, byte);
            // A byte that ends an escape or a comment begins none.
            let is_passed = before == b'\\' || (before == b'*' && byte == b'/');
            before = if is_passed { 0 } else { byte };
            if byte == b'\n' {
                line = line.saturating_add(1);
            }
        }
        Marks(marks)
    }

    /// Where a line is from that is counted from 0; nothing where no mark comes before it.
    pub(crate) fn origin(&self, line: usize) -> Option<Origin<'a>> {
        let behind = self.0.partition_point(|mark| mark.line < line);
        let mark = self.0.get(behind.checked_sub(1)?)?;
        let distance = line.saturating_sub(mark.line).saturating_sub(1);
        Some(Origin {
            file: mark.file,
            line: mark.number.saturating_add(distance),
        })
    }
}

// The mark on a line with a `#` at a place of it, after one that named a file.
fn mark_at<'a>(
    text: &'a [u8],
    starts: &[usize],
    line: usize,
    place: usize,
    earlier: Option<&'a str>,
) -> Option<Mark<'a>> {
    let whole = span_of_line(text, starts, line);
    let before = Span {
        end: place,
        ..whole
    };
    if !before.read(text).trim_start().is_empty() {
        return None;
    }
    let (number, file) = read_mark(whole.read(text))?;
    Some(Mark {
        line,
        number,
        file: file.or(earlier),
    })
}

// The number and the file that a line says, if it is a mark.
fn read_mark(line: &str) -> Option<(usize, Option<&str>)> {
    let behind = line.trim_start().strip_prefix('#')?.trim_start();
    let behind = behind.strip_prefix("line").unwrap_or(behind).trim_start();
    let (number, rest) = behind.split_once(' ').unwrap_or((behind, ""));
    let number = number.trim_end().parse().ok()?;
    Some((number, quoted(rest.trim_start())))
}

// What stands in quotes at the beginning of a text.
fn quoted(text: &str) -> Option<&str> {
    let (quoted, _) = text.strip_prefix('"')?.split_once('"')?;
    Some(quoted)
}
