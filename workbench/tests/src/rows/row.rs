//! A row of the table: a command line with its files, and what it is to print and to save.

use std::num::ParseIntError;
use std::str::FromStr;

/// The name of the standard input among the files of a row.
pub const INPUT: &str = "/dev/stdin";

/// The word that begins a row.
const ROW: &str = "@run ";

/// The words that have the library print lines of its own.
const LIBRARY_WORDS: [&str; 5] = ["--help", "--version", "-h", "-V", "help"];

/// The status of a mistake on the command line.
const WRONG_COMMAND_LINE: u8 = 2;

/// What is wrong with the text of a row.
#[derive(Debug, Clone, PartialEq, Eq, thiserror::Error)]
pub enum RowError {
    #[error("@{0} is no part of a row")]
    UnknownPart(String),
    #[error("@{0} stands before the first file")]
    NoFile(String),
    #[error("`{word}`: {error}")]
    Number { word: String, error: ParseIntError },
    #[error("@numbered has no # in `{0}`")]
    NoMark(String),
    #[error("it has no @status")]
    NoStatus,
}

/// A file's name and its bytes.
#[derive(Debug, Clone, PartialEq, Eq)]
pub struct File {
    pub name: String,
    pub bytes: Vec<u8>,
}

/// A run of the program that was worked out by hand.
#[derive(Debug, Clone, Default, PartialEq, Eq)]
pub struct Row<'t> {
    pub text: &'t str,
    /// The command line, with the program's name first.
    pub command: &'t str,
    pub name: &'t str,
    pub files: Vec<File>,
    pub status: u8,
    pub lines: String,
    /// What it tells beside its output, on the standard error, where the row says that.
    pub hint: Option<String>,
    /// What it saves, where the row says that.
    pub saved: Option<Vec<u8>>,
}

/// Parses the rows of a table.
pub fn parse_rows(table: &str) -> impl Iterator<Item = Result<Row<'_>, (&str, RowError)>> {
    table.split(ROW).skip(1).map(|text| {
        Row::parse(text).map_err(|error| (text.lines().next().unwrap_or_default(), error))
    })
}

impl<'t> Row<'t> {
    /// Parses a row: the command line, then `@name NAME`, a part `@file NAME` or `@hex NAME` for each file, which
    /// `@more TEXT`, `@times COUNT TEXT`, `@numbered COUNT TEXT` and `@fill LENGTH` make longer, `@status N` with
    /// the printed lines, and perhaps `@hint` with the lines on the standard error, and `@image` or `@saved` with the
    /// bytes or the lines that are saved. Without `@hint` these lines are what `check` prints of the source, where the
    /// command refuses it, and else none. In files the pictures of control characters stand for these, and in the printed lines that of ESC does.
    ///
    /// ```
    /// use edd_tests::rows::Row;
    /// let row = Row::parse("edd view s\n@name an empty text\n@file s\n@status 1\nrefused 10 SYNTAX line 1\n")?;
    /// assert_eq!((row.name, row.status), ("an empty text", 1));
    /// assert_eq!(row.words().collect::<Vec<_>>(), ["view", "s"]);
    /// # Ok::<(), edd_tests::rows::RowError>(())
    /// ```
    pub fn parse(text: &'t str) -> Result<Row<'t>, RowError> {
        let (command, rest) = text.split_once('\n').unwrap_or((text, ""));
        let mut row = Row {
            text,
            command,
            ..Row::default()
        };
        let mut has_status = false;
        for part in split_parts(rest) {
            let (head, below) = part.split_once('\n').unwrap_or((part, ""));
            let (kind, words) = head.split_once(' ').unwrap_or((head, ""));
            has_status |= kind == "status";
            row.add_part(kind, words, below)?;
        }
        if has_status {
            Ok(row)
        } else {
            Err(RowError::NoStatus)
        }
    }

    fn add_part(&mut self, kind: &str, words: &'t str, below: &str) -> Result<(), RowError> {
        match kind {
            "name" => self.name = words,
            "file" => self.files.push(File {
                name: words.to_owned(),
                bytes: replace_pictures(below).into_bytes(),
            }),
            "hex" => self.files.push(File {
                name: words.to_owned(),
                bytes: parse_hex(below)?,
            }),
            "hint" => self.hint = Some(below.to_owned()),
            "image" => self.saved = Some(parse_hex(below)?),
            "saved" => self.saved = Some(replace_pictures(below).into_bytes()),
            "status" => {
                self.status = parse_number(words)?;
                self.lines = below.replace('\u{241b}', "\u{1b}");
            }
            _ => match self.files.last_mut() {
                Some(file) => lengthen(&mut file.bytes, kind, words)?,
                None => return Err(RowError::NoFile(kind.to_owned())),
            },
        }
        Ok(())
    }

    /// The words of the command line after the program's name.
    pub fn words(&self) -> impl Iterator<Item = &'t str> + use<'t> {
        self.command.split(' ').skip(1)
    }

    /// What names the row: its command line and its name.
    pub fn title(&self) -> String {
        format!("{}: {}", self.command, self.name)
    }

    /// The bytes of a file of the row.
    pub fn file(&self, name: &str) -> Option<&[u8]> {
        self.files
            .iter()
            .find(|file| file.name == name)
            .map(|file| file.bytes.as_slice())
    }

    /// Whether its lines are words of the library that reads command lines, which differ by its version.
    pub fn prints_library_text(&self) -> bool {
        self.status == WRONG_COMMAND_LINE
            || self.words().next().is_none()
            || self.words().any(|word| LIBRARY_WORDS.contains(&word))
    }
}

/// Splits a row into its parts, without their `@`. Another `@`, as of `@@ -1 +1 @@`, begins none.
fn split_parts(row: &str) -> impl Iterator<Item = &str> {
    let begins_part = |line: &str| {
        line.strip_prefix('@')
            .is_some_and(|line| line.starts_with(|first: char| first.is_ascii_lowercase()))
    };
    let mut rest = row;
    std::iter::from_fn(move || {
        let part = rest.strip_prefix('@')?;
        let mut end = 0_usize;
        for line in part.split_inclusive('\n') {
            if end > 0 && begins_part(line) {
                break;
            }
            end = end.saturating_add(line.len());
        }
        let (part, behind) = part.split_at(end);
        rest = behind;
        Some(part)
    })
}

/// The bytes that are written as pairs of digits to the base 16, with blanks between them.
pub fn parse_hex(digits: &str) -> Result<Vec<u8>, RowError> {
    let parse = |word| {
        u8::from_str_radix(word, 16).map_err(|error| RowError::Number {
            word: word.to_owned(),
            error,
        })
    };
    digits.split_ascii_whitespace().map(parse).collect()
}

fn parse_number<N: FromStr<Err = ParseIntError>>(word: &str) -> Result<N, RowError> {
    word.parse().map_err(|error| RowError::Number {
        word: word.to_owned(),
        error,
    })
}

/// Replaces each picture of a control character by this character.
fn replace_pictures(text: &str) -> String {
    let replace = |character| match character {
        '\u{2400}'..='\u{241f}' => char::from_u32(u32::from(character) & 0x1f).unwrap_or(character),
        '\u{2421}' => '\u{7f}',
        _ => character,
    };
    text.chars().map(replace).collect()
}

/// Makes a file longer: by a text, by a piece so many times, or by blanks up to a length.
fn lengthen(bytes: &mut Vec<u8>, kind: &str, words: &str) -> Result<(), RowError> {
    let (count, piece) = words.split_once(' ').unwrap_or((words, ""));
    match kind {
        "more" => bytes.extend(replace_pictures(words).into_bytes()),
        "times" => bytes.extend(piece.repeat(parse_number(count)?).into_bytes()),
        "numbered" => {
            let (before, behind) = piece
                .split_once('#')
                .ok_or_else(|| RowError::NoMark(piece.to_owned()))?;
            for number in 0..parse_number::<usize>(count)? {
                bytes.extend(format!("{before}{number}{behind}").into_bytes());
            }
        }
        "fill" => bytes.resize(bytes.len().max(parse_number(words)?), b' '),
        _ => return Err(RowError::UnknownPart(kind.to_owned())),
    }
    Ok(())
}

#[cfg(test)]
mod tests {
    use super::*;

    fn bytes_of(parts: &str) -> Result<Vec<u8>, RowError> {
        let text = format!("edd view s\n@file s\n{parts}@status 0\n");
        Row::parse(&text).map(|row| row.files[0].bytes.clone())
    }

    #[test]
    fn files_grow_by_their_parts() {
        assert_eq!(
            bytes_of("a\n@more b c\n").as_deref(),
            Ok(b"a\nb c".as_slice())
        );
        assert_eq!(
            bytes_of("@times 3 ab\n").as_deref(),
            Ok(b"ababab".as_slice())
        );
        assert_eq!(
            bytes_of("@numbered 3 v#;\n").as_deref(),
            Ok(b"v0;v1;v2;".as_slice())
        );
        assert_eq!(
            bytes_of("@more ab\n@fill 4\n").as_deref(),
            Ok(b"ab  ".as_slice())
        );
        assert_eq!(bytes_of("␀␡␟\n").as_deref(), Ok(b"\0\x7f\x1f\n".as_slice()));
    }

    #[test]
    fn what_is_no_row_is_refused() {
        assert_eq!(
            bytes_of("@lines 3\n"),
            Err(RowError::UnknownPart("lines".into()))
        );
        assert_eq!(
            bytes_of("@numbered 3 v\n"),
            Err(RowError::NoMark("v".into()))
        );
        assert_eq!(Row::parse("edd view s\n"), Err(RowError::NoStatus));
        assert_eq!(
            Row::parse("edd view s\n@more a\n@status 0\n"),
            Err(RowError::NoFile("more".into()))
        );
        assert!(matches!(
            Row::parse("edd view s\n@status none\n"),
            Err(RowError::Number { .. })
        ));
    }

    #[test]
    fn escape_stands_in_lines_by_its_picture() {
        assert_eq!(
            Row::parse("edd open s\n@status 0\n␛[J␀").map(|row| row.lines),
            Ok("\u{1b}[J␀".into())
        );
    }

    #[test]
    fn lines_of_the_library_are_known() {
        let is_of_library = |text| Row::parse(text).is_ok_and(|row| row.prints_library_text());
        assert!(
            is_of_library("edd\n@status 0\n")
                && is_of_library("edd view --help\n@status 0\n")
                && is_of_library("edd view\n@status 2\n")
        );
        assert!(!is_of_library("edd view s\n@status 1\n"));
    }
}
