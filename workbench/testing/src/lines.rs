//! A report as lines.

use crate::{Event, Report, Summary, Verdict};
use edd_cases::Misread;
use std::io::{self, Write};

/// Prints a line for each test, what differs in those that failed, and counts at the end.
#[derive(Debug)]
pub struct Lines<W>(
    /// Where it prints.
    pub W,
);

impl<W: Write> Report for Lines<W> {
    fn add(&mut self, event: Event<'_>) -> io::Result<()> {
        let out = &mut self.0;
        match event {
            Event::Tested {
                file,
                name,
                verdict: Verdict::Passed,
            } => writeln!(out, "passed {file}: {name}"),
            Event::Tested {
                file,
                name,
                verdict: Verdict::Failed(mismatch),
            } => {
                let line = mismatch.line;
                writeln!(out, "failed {file}: {name}")?;
                writeln!(out, "  line {line}: expected {}", mismatch.expected)?;
                writeln!(out, "  line {line}: seen {}", mismatch.seen)
            }
            Event::Refused {
                file,
                misread: Misread { line, fault },
            } => writeln!(out, "{file}:{line}: refused {fault}"),
            Event::Updated { file } => writeln!(out, "updated {file}"),
        }
    }

    fn finish(&mut self, summary: Summary) -> io::Result<()> {
        writeln!(self.0, "{summary}")
    }
}
