//! The documents that an editor has open, and how its changes change them.

use crate::colours::SentTokens;
use crate::params::ContentChange;
use crate::positions::{Encoding, Lines};
use crate::uri::path_of;
use edd_ide::Document;
use std::collections::BTreeMap;

/// A document that is open.
#[derive(Debug)]
pub(crate) struct Open {
    pub(crate) version: Option<i64>,
    pub(crate) document: Document,
    pub(crate) lines: Lines,
    /// Whether the editor knows what is wrong with this version.
    pub(crate) is_told: bool,
    pub(crate) path: String,
    /// The words that the editor was told of last, of this version or of an earlier one.
    pub(crate) sent_tokens: SentTokens,
}

/// All that are open, by the names that the editor gives them.
pub(crate) type Documents = BTreeMap<String, Open>;

impl Open {
    pub(crate) fn new(uri: &str, text: String, version: Option<i64>) -> Open {
        Open::of_path(path_of(uri), text, version)
    }

    fn of_path(path: String, text: String, version: Option<i64>) -> Open {
        Open {
            version,
            lines: Lines::of(&text),
            document: Document::named(&path, text),
            is_told: false,
            path,
            sent_tokens: SentTokens::default(),
        }
    }

    /// The next version, by changes one after the other.
    pub(crate) fn changed(
        &self,
        changes: Vec<ContentChange>,
        version: Option<i64>,
        encoding: Encoding,
    ) -> Open {
        let mut changes = changes.into_iter();
        let first = changes.next();
        let text = first.map_or_else(
            || self.document.text().to_owned(),
            |change| edited(self.document.text(), &self.lines, change, encoding),
        );
        let text = changes.fold(text, |text, change| {
            edited(&text, &Lines::of(&text), change, encoding)
        });
        Open {
            sent_tokens: self.sent_tokens.take(),
            ..Open::of_path(self.path.clone(), text, version)
        }
    }
}

/// A text with a change.
fn edited(text: &str, lines: &Lines, change: ContentChange, encoding: Encoding) -> String {
    let Some(range) = change.range else {
        return change.text;
    };
    let start = lines.byte(text, range.start, encoding);
    let end = lines.byte(text, range.end, encoding).max(start);
    let before = text.get(..start).unwrap_or(text);
    let after = text.get(end..).unwrap_or_default();
    [before, &change.text, after].concat()
}

#[cfg(test)]
#[allow(clippy::arithmetic_side_effects, reason = "a test fails by a panic")]
mod tests {
    use super::*;
    use crate::positions::{Position, Range};
    use proptest::collection::vec;
    use proptest::prelude::*;
    use proptest::test_runner::{Config, RngAlgorithm, TestRng, TestRunner};

    /// The byte of a position, counted character by character.
    fn counted(text: &str, at: Position, encoding: Encoding) -> usize {
        let (mut line, mut column, mut before) = (0, 0, ' ');
        for (byte, character) in text.char_indices() {
            if before == '\r' && character != '\n' {
                (line, column) = (line + 1, 0);
            }
            let ends = matches!(character, '\n' | '\r') && !(before == '\r' && character == '\n');
            let width = match encoding {
                Encoding::Utf8 => character.len_utf8(),
                Encoding::Utf16 => character.len_utf16(),
            };
            if line == at.line && (ends || at.character < column + width) {
                return byte;
            }
            column += width;
            if character == '\n' {
                (line, column) = (line + 1, 0);
            }
            before = character;
        }
        text.len()
    }

    fn positions() -> impl Strategy<Value = Position> {
        (0..6_usize, 0..9_usize).prop_map(|(line, character)| Position { line, character })
    }

    #[test]
    fn changes_of_parts_are_made_where_they_are_counted() {
        let text = "[a\r\n\u{e4}\u{1d11e}]{0,30}";
        let changes = vec((positions(), positions(), "[b\r\n]{0,3}"), 1..5);
        let config = Config {
            failure_persistence: None,
            ..Config::default()
        };
        let random = TestRng::deterministic_rng(RngAlgorithm::ChaCha);
        let mut runner = TestRunner::new_with_rng(config, random);
        let ran = runner.run(
            &(text, changes, any::<bool>()),
            |(text, changes, is_bytes)| {
                let encoding = if is_bytes {
                    Encoding::Utf8
                } else {
                    Encoding::Utf16
                };
                let mut wanted = text.clone();
                for (start, end, new) in &changes {
                    let first = counted(&wanted, *start, encoding);
                    let last = counted(&wanted, *end, encoding).max(first);
                    wanted.replace_range(first..last, new);
                }
                let changes = changes.into_iter().map(|(start, end, text)| ContentChange {
                    range: Some(Range { start, end }),
                    text,
                });
                let open =
                    Open::new("f:d", text, None).changed(changes.collect(), Some(2), encoding);
                prop_assert_eq!(open.document.text(), wanted);
                prop_assert_eq!(open.version, Some(2));
                Ok(())
            },
        );
        assert_eq!(ran, Ok(()));
    }
}
