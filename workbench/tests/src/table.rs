//! Tables of calls: parts with rows, each of which has a text and the answer that is wanted.
//!
//! A part begins with a line `@KIND NAME`. A row is a line `- TEXT -> ANSWER`, or it begins with `?` and
//! what is asked, with a line `> ` for each line of its text and a line `< ` for each of its answer.
//! Lines that begin with a `#` are comments.

/// A part of a table.
#[derive(Debug, Clone, Copy, PartialEq, Eq)]
pub struct Part<'t> {
    pub kind: &'t str,
    pub name: &'t str,
    /// The lines below its head.
    pub lines: &'t str,
    /// The number of its head in the table, counted from 1.
    pub line: usize,
}

/// A row of a part. Neither text ends with a line feed.
#[derive(Debug, Clone, Default, PartialEq, Eq)]
pub struct Row<'t> {
    pub asked: &'t str,
    pub text: String,
    pub wanted: String,
    /// The number of its first line in the table, counted from 1.
    pub line: usize,
}

/// A line of a part that belongs to no row.
#[derive(Debug, Clone, PartialEq, Eq, thiserror::Error)]
#[error("line {number} belongs to no row: {line}")]
pub struct StrayLine {
    pub number: usize,
    pub line: String,
}

/// Returns the parts of a table, in order.
///
/// ```
/// let table = "# a comment\n@kind one name\n- a -> b\n@other\n? asked\n> text\n< answer\n";
/// let parts: Vec<_> = edd_tests::table::parts(table).collect();
/// assert_eq!(parts.len(), 2);
/// assert_eq!((parts[0].kind, parts[0].name), ("kind", "one name"));
/// assert_eq!((parts[1].line, parts[1].lines), (4, "? asked\n> text\n< answer"));
/// ```
pub fn parts(table: &str) -> impl Iterator<Item = Part<'_>> {
    let mut next = 1_usize;
    let pieces = table.trim_end().split("\n@").enumerate();
    pieces.filter_map(move |(number, piece)| {
        let line = next;
        next = next.saturating_add(piece.split('\n').count());
        // What comes before the first head is a part only where the table begins with that head.
        let piece = if number == 0 {
            piece.strip_prefix('@')?
        } else {
            piece
        };
        let (head, lines) = piece.split_once('\n').unwrap_or((piece, ""));
        let (kind, name) = head.split_once(' ').unwrap_or((head, ""));
        Some(Part {
            kind,
            name,
            lines,
            line,
        })
    })
}

impl<'t> Part<'t> {
    /// Returns whether its name contains all these words.
    pub fn is_named(&self, words: &[String]) -> bool {
        words.iter().all(|word| self.name.contains(word.as_str()))
    }

    /// Returns its lines with their numbers in the table.
    pub fn numbered_lines(&self) -> impl Iterator<Item = (usize, &'t str)> {
        let first = self.line.saturating_add(1);
        (first..).zip(self.lines.lines())
    }

    /// Reads its rows.
    ///
    /// ```
    /// let table = "@kind name\n- a -> b -> c\n? asked\n> one\n> two\n< answer\n";
    /// let part = edd_tests::table::parts(table).next().unwrap();
    /// let rows = part.rows()?;
    /// assert_eq!((rows[0].text.as_str(), rows[0].wanted.as_str()), ("a -> b", "c"));
    /// assert_eq!((rows[1].asked, rows[1].text.as_str()), ("asked", "one\ntwo"));
    /// # Ok::<(), edd_tests::table::StrayLine>(())
    /// ```
    ///
    /// # Errors
    ///
    /// Returns the first line that belongs to no row.
    pub fn rows(&self) -> Result<Vec<Row<'t>>, StrayLine> {
        let mut rows: Vec<RowLines<'t>> = Vec::new();
        for (number, line) in self.numbered_lines() {
            let (sign, rest) = line.split_once(' ').unwrap_or((line, ""));
            match (sign, rows.last_mut()) {
                ("#" | "", _) => {}
                ("-", _) => rows.push(RowLines::in_one_line(number, rest)),
                ("?", _) => rows.push(RowLines {
                    line: number,
                    asked: rest,
                    ..RowLines::default()
                }),
                (">", Some(row)) if !row.is_whole => row.text.push(rest),
                ("<", Some(row)) if !row.is_whole => row.wanted.push(rest),
                _ => {
                    return Err(StrayLine {
                        number,
                        line: line.to_owned(),
                    });
                }
            }
        }
        Ok(rows.into_iter().map(Row::from).collect())
    }
}

/// A row while its lines are read.
#[derive(Default)]
struct RowLines<'t> {
    line: usize,
    asked: &'t str,
    text: Vec<&'t str>,
    wanted: Vec<&'t str>,
    /// Whether it is a row of one line.
    is_whole: bool,
}

impl<'t> RowLines<'t> {
    fn in_one_line(line: usize, row: &'t str) -> Self {
        let halves = row.rsplit_once(" -> ");
        let (text, wanted) = halves.unwrap_or((row.strip_suffix(" ->").unwrap_or(row), ""));
        RowLines {
            line,
            asked: "",
            text: vec![text],
            wanted: vec![wanted],
            is_whole: true,
        }
    }
}

impl<'t> From<RowLines<'t>> for Row<'t> {
    fn from(lines: RowLines<'t>) -> Self {
        let (text, wanted) = (lines.text.join("\n"), lines.wanted.join("\n"));
        Row {
            asked: lines.asked,
            text,
            wanted,
            line: lines.line,
        }
    }
}

/// Returns the bytes that a text of a table stands for, or nothing if it ends inside an escape.
///
/// `\n`, `\r`, `\t` and `\x` with two hexadecimal digits are escapes; any other character after a
/// backslash stands for itself.
///
/// ```
/// use edd_tests::table::unescaped;
/// assert_eq!(unescaped(r"a\n\xC3\\x\q"), Some(b"a\n\xC3\\xq".to_vec()));
/// assert_eq!(unescaped(r"\xC"), None);
/// ```
pub fn unescaped(text: &str) -> Option<Vec<u8>> {
    let mut bytes = Vec::with_capacity(text.len());
    let mut rest = text;
    while let Some((before, after)) = rest.split_once('\\') {
        bytes.extend_from_slice(before.as_bytes());
        let sign = after.chars().next()?;
        rest = after.get(sign.len_utf8()..)?;
        match sign {
            'n' => bytes.push(b'\n'),
            'r' => bytes.push(b'\r'),
            't' => bytes.push(b'\t'),
            'x' => {
                bytes.push(u8::from_str_radix(rest.get(..2)?, 16).ok()?);
                rest = rest.get(2..)?;
            }
            other => bytes.extend_from_slice(other.encode_utf8(&mut [0; 4]).as_bytes()),
        }
    }
    bytes.extend_from_slice(rest.as_bytes());
    Some(bytes)
}

#[cfg(test)]
mod tests {
    use super::*;

    fn part(lines: &str) -> Part<'_> {
        Part {
            kind: "kind",
            name: "a name of it",
            lines,
            line: 10,
        }
    }

    #[test]
    fn a_table_may_begin_with_a_part() {
        let found: Vec<_> = parts("@a one\n- x -> y\n\n@b\n").collect();
        assert_eq!(found.len(), 2);
        assert_eq!(
            found[0],
            Part {
                kind: "a",
                name: "one",
                lines: "- x -> y\n",
                line: 1
            }
        );
        assert_eq!(
            found[1],
            Part {
                kind: "b",
                name: "",
                lines: "",
                line: 4
            }
        );
    }

    #[test]
    fn what_is_before_the_first_part_is_left_out() {
        assert_eq!(parts("# @a\n").count(), 0);
        assert_eq!(parts("").count(), 0);
        assert_eq!(
            parts("# a comment\n@a\n")
                .map(|part| part.line)
                .collect::<Vec<_>>(),
            [2]
        );
    }

    #[test]
    fn parts_are_chosen_by_all_words_of_their_names() {
        let words = |words: &[&str]| {
            words
                .iter()
                .map(|word| (*word).to_owned())
                .collect::<Vec<_>>()
        };
        assert!(part("").is_named(&[]));
        assert!(part("").is_named(&words(&["name", "of it"])));
        assert!(!part("").is_named(&words(&["name", "kind"])));
    }

    #[test]
    fn rows_of_one_line_may_have_empty_halves() {
        let rows = part("-  ->\n- a ->\n# b\n-  -> c").rows().unwrap();
        let halves: Vec<_> = rows
            .iter()
            .map(|row| (row.text.as_str(), row.wanted.as_str()))
            .collect();
        assert_eq!(halves, [("", ""), ("a", ""), ("", "c")]);
        assert_eq!(
            rows.iter().map(|row| row.line).collect::<Vec<_>>(),
            [11, 12, 14]
        );
    }

    #[test]
    fn rows_of_several_lines_keep_empty_lines_of_theirs() {
        let rows = part("?\n>\n> a\n>\n<\n? more\n").rows().unwrap();
        assert_eq!(
            rows[0],
            Row {
                asked: "",
                text: "\na\n".into(),
                wanted: String::new(),
                line: 11
            }
        );
        assert_eq!(
            rows[1],
            Row {
                asked: "more",
                line: 16,
                ..Row::default()
            }
        );
    }

    #[test]
    fn other_lines_are_refused() {
        let stray = |lines| part(lines).rows().unwrap_err();
        assert_eq!(
            stray("> a"),
            StrayLine {
                number: 11,
                line: "> a".into()
            }
        );
        assert_eq!(stray("- a -> b\n< c").number, 12);
        assert_eq!(stray("#a").to_string(), "line 11 belongs to no row: #a");
    }

    #[test]
    fn escapes_stand_for_bytes() {
        assert_eq!(
            unescaped(r"\r\t\x00\xfF\é\\").as_deref(),
            Some(
                "\r\t\0"
                    .as_bytes()
                    .iter()
                    .copied()
                    .chain([0xFF])
                    .chain("é\\".bytes())
                    .collect::<Vec<_>>()
                    .as_slice()
            )
        );
        assert_eq!(unescaped(""), Some(Vec::new()));
        assert_eq!(unescaped(r"a\"), None);
        assert_eq!(unescaped(r"\xg0"), None);
    }
}
