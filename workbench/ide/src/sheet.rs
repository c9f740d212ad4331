//! What a file of tests or a script names.

use crate::paths::{FileKind, descriptions_of, path_beside};
use edd_helps::script_names;
use edd_source::Span;
use edd_syntax::numbers::Kind;
use edd_testing::{NameSort, TestFault, TestFile, TestPlaces};
use std::collections::BTreeSet;

/// What stands at a place of a file of tests or a script.
#[derive(Clone, Copy, Debug)]
pub(crate) struct Mention {
    pub(crate) span: Span,
    pub(crate) sort: MentionSort,
    /// The test in which it stands, by its place among the tests.
    pub(crate) test: Option<usize>,
}

#[derive(Clone, Copy, Debug, PartialEq, Eq)]
pub(crate) enum MentionSort {
    /// An item of the description.
    Item(NameSort),
    /// A description, by its file.
    File,
}

/// A line of a script, and the test in which it stands.
#[derive(Clone, Copy, Debug)]
pub(crate) struct ScriptLine {
    pub(crate) span: Span,
    pub(crate) test: Option<usize>,
}

/// The files that a test names.
#[derive(Debug)]
pub(crate) struct TestPaths {
    pub(crate) source: Option<String>,
    pub(crate) device: Option<String>,
}

/// A file of tests or a script.
#[derive(Debug, Default)]
pub(crate) struct Sheet {
    pub(crate) tests: Vec<TestPlaces>,
    /// Of each test the paths of its source and its device.
    pub(crate) paths: Vec<TestPaths>,
    /// All sources, and all sources with devices, each once.
    pub(crate) sources: BTreeSet<String>,
    pub(crate) pairs: BTreeSet<(String, String)>,
    /// The paths of the descriptions for which a script may be, the likeliest first.
    pub(crate) descriptions: Vec<String>,
    pub(crate) faults: Vec<(Span, TestFault)>,
    pub(crate) lines: Vec<ScriptLine>,
    /// In the order of the text.
    mentions: Vec<Mention>,
}

impl MentionSort {
    /// Whether it names an item of a kind.
    pub(crate) fn fits(self, kind: Kind) -> bool {
        match self {
            MentionSort::Item(NameSort::Method) => kind == Kind::Method,
            MentionSort::Item(NameSort::Variable) => kind == Kind::Variable,
            MentionSort::Item(NameSort::Printed(of) | NameSort::Absent(of)) => {
                of.is_none_or(|of| of == kind)
            }
            MentionSort::File => false,
        }
    }
}

impl Sheet {
    /// What a file of this path names; none of a description.
    pub(crate) fn of(path: &str, text: &str) -> Option<Sheet> {
        match FileKind::of(path) {
            FileKind::Description => None,
            FileKind::Tests => Some(Sheet::of_tests(path, TestFile::read(text))),
            FileKind::Script => Some(Sheet::of_script(path, text)),
        }
    }

    fn of_tests(path: &str, file: TestFile) -> Sheet {
        let named = |name: &Option<String>| Some(path_beside(path, name.as_deref()?));
        let paths = file.tests.iter().map(|test| TestPaths {
            source: named(&test.source),
            device: named(&test.device),
        });
        let paths: Vec<_> = paths.collect();
        let sources = paths.iter().filter_map(|test| test.source.clone());
        let pairs = paths
            .iter()
            .filter_map(|test| test.source.clone().zip(test.device.clone()));
        let files = file.files.iter().map(|span| Mention {
            span: *span,
            sort: MentionSort::File,
            test: None,
        });
        let mut sheet = Sheet {
            mentions: files.collect(),
            faults: file.faults,
            sources: sources.collect(),
            pairs: pairs.collect(),
            paths,
            ..Sheet::default()
        };
        for (number, test) in file.tests.iter().enumerate() {
            let test_number = Some(number);
            sheet.mentions.extend(test.names.iter().map(|name| Mention {
                span: name.span,
                sort: MentionSort::Item(name.sort),
                test: test_number,
            }));
            sheet
                .lines
                .extend(test.script.iter().map(|span| ScriptLine {
                    span: *span,
                    test: test_number,
                }));
        }
        sheet.mentions.sort_by_key(|mention| mention.span.start);
        sheet.tests = file.tests;
        sheet
    }

    fn of_script(path: &str, text: &str) -> Sheet {
        let mut sheet = Sheet {
            descriptions: descriptions_of(path),
            ..Sheet::default()
        };
        let mut start: usize = 0;
        for line in text.split_inclusive('\n') {
            let span = Span {
                start,
                end: start.saturating_add(line.len()),
            };
            sheet.lines.push(ScriptLine { span, test: None });
            let words = line.trim_end_matches(['\r', '\n']);
            sheet
                .mentions
                .extend(script_names(words).into_iter().map(|name| Mention {
                    span: moved(name, start),
                    sort: MentionSort::Item(NameSort::Variable),
                    test: None,
                }));
            start = span.end;
        }
        sheet
    }

    pub(crate) fn mentions(&self) -> &[Mention] {
        &self.mentions
    }

    /// What is named at a byte, or ends there.
    pub(crate) fn mention_at(&self, byte: usize) -> Option<Mention> {
        let number = self.mentions.partition_point(|it| it.span.end < byte);
        let found = self.mentions.get(number)?;
        (found.span.start <= byte).then_some(*found)
    }

    /// The test in which a byte is, by its place among the tests.
    pub(crate) fn test_at(&self, byte: usize) -> Option<usize> {
        let behind = self.tests.partition_point(|test| test.name.start <= byte);
        behind.checked_sub(1)
    }
}

/// A span of a line as one of the text.
pub(crate) fn moved(span: Span, start: usize) -> Span {
    Span {
        start: span.start.saturating_add(start),
        end: span.end.saturating_add(start),
    }
}
