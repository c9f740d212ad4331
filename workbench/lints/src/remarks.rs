//! Comments that allow lints: `edd: allow NAME, NAME` on the line of a warning or on the line
//! before it. `all` stands for every lint.

use crate::classes::{nearest, replacement};
use crate::kind::TextKind;
use crate::lint::{LINTS, Lint};
use crate::source::{Gap, Source};
use crate::warning::Findings;
use edd_source::Span;

const ALLOW: &[u8] = b"edd: allow ";

/// What stands for every lint.
const ALL: &str = "all";

/// A lint that a comment allows.
struct Remark {
    line: u32,
    /// None where it allows every one.
    lint: Option<Lint>,
}

/// A word behind `edd: allow` that names no lint, and is almost certainly meant to.
struct Unknown {
    line: u32,
    span: Span,
    word: String,
}

/// The lints that the comments of a source allow.
#[derive(Default)]
pub(crate) struct Remarks {
    // By their lines.
    remarks: Vec<Remark>,
    unknown: Vec<Unknown>,
}

fn find(bytes: &[u8], wanted: &[u8]) -> Option<usize> {
    bytes
        .windows(wanted.len())
        .position(|window| window == wanted)
}

impl Remarks {
    /// Reads the comments of a source.
    pub(crate) fn of(source: Source<'_>) -> Remarks {
        let mut remarks = Remarks::default();
        for gap in source.gaps() {
            remarks.add_gap(source, gap);
        }
        remarks
    }

    // Reads the blanks and comments between two tokens.
    fn add_gap(&mut self, source: Source<'_>, gap: Gap) {
        let bytes = source.slice(gap.span);
        if bytes.len() < ALLOW.len() || !bytes.contains(&b':') {
            return;
        }
        let mut start = gap.span.start;
        for (bytes, line) in bytes
            .split(|byte| *byte == b'\n')
            .zip(source.first_line(gap)..)
        {
            if let Some(found) = find(bytes, ALLOW) {
                let behind = found.saturating_add(ALLOW.len());
                let names = bytes
                    .get(behind..)
                    .and_then(|rest| str::from_utf8(rest).ok());
                self.add_names(
                    line,
                    start.saturating_add(behind),
                    names.unwrap_or_default(),
                );
            }
            start = start.saturating_add(bytes.len()).saturating_add(1);
        }
    }

    // Adds the lints whose names come first, up to a word that is the name of none.
    fn add_names(&mut self, line: u32, start: usize, names: &str) {
        let mut start = start;
        let mut is_first = true;
        for part in names.split(',') {
            let name = part.trim();
            let word = name.split([' ', '\t', '*']).next().unwrap_or_default();
            let lint = Lint::from_name(word);
            if lint.is_none() && word != ALL {
                // A reason may follow the names.
                if is_first || word.contains('-') {
                    let blanks = part.len().saturating_sub(part.trim_start().len());
                    self.add_unknown(line, start.saturating_add(blanks), word);
                }
                break;
            }
            self.remarks.push(Remark { line, lint });
            start = start.saturating_add(part.len()).saturating_add(1);
            is_first = false;
        }
    }

    fn add_unknown(&mut self, line: u32, start: usize, word: &str) {
        let end = start.saturating_add(word.len());
        self.unknown.push(Unknown {
            line,
            span: Span { start, end },
            word: word.to_owned(),
        });
    }

    /// Warns of names behind `edd: allow` that are those of no lint.
    pub(crate) fn check_names(&self, findings: &mut Findings<'_>) {
        for Unknown { line, span, word } in &self.unknown {
            match nearest(word, LINTS.iter().map(|lint| lint.name())) {
                Some(near) => {
                    let fix = replacement(*span, near);
                    let kind = TextKind::MisspelledLint(word.clone(), near);
                    findings.add_span_fixed(*span, *line, kind, fix);
                }
                None => findings.add_span(*span, *line, TextKind::UnknownLint(word.clone())),
            }
        }
    }

    /// Whether a comment on a line, or on the one before it, allows a lint.
    pub(crate) fn allow(&self, lint: Lint, line: u32) -> bool {
        let first = self
            .remarks
            .partition_point(|remark| remark.line < line.saturating_sub(1));
        let near = self.remarks.iter().skip(first);
        near.take_while(|remark| remark.line <= line)
            .any(|remark| remark.lint.is_none_or(|allowed| allowed == lint))
    }
}
