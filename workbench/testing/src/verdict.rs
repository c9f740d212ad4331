//! How a test ended.

use edd_outcomes::Difference;
use std::fmt;

/// How a test ended.
#[derive(Clone, Debug, PartialEq, Eq)]
pub enum Verdict {
    /// It printed what it expects.
    Passed,
    /// It didn't, at this line.
    Failed(Mismatch),
}

/// The first line that differs.
#[derive(Clone, Debug, PartialEq, Eq)]
pub struct Mismatch {
    /// The number of the line of the file that expects it.
    pub line: usize,
    /// What is expected.
    pub expected: Expected,
    /// What was printed.
    pub seen: Seen,
}

/// What a test expects at a line.
#[derive(Clone, Debug, PartialEq, Eq)]
pub enum Expected {
    /// This line.
    Line(String),
    /// Nothing behind what was printed.
    NoMoreLines,
    /// That this line is not printed.
    NoSuchLine(String),
}

/// What a test printed there.
#[derive(Clone, Debug, PartialEq, Eq)]
pub enum Seen {
    /// This line.
    Line(String),
    /// Nothing more.
    NoMoreLines,
    /// The line is none of those that are left.
    NoSuchLine,
    /// The line is not there, and the run was refused with this line.
    Refusal(String),
}

impl Mismatch {
    /// The difference that the core found. The run may have ended with a refusal.
    pub(crate) fn new(difference: Difference<'_, '_>, refusal: Option<&str>) -> Mismatch {
        let owned = str::to_owned;
        match difference {
            Difference::Other {
                line,
                expected,
                seen,
            } => Mismatch {
                line,
                expected: Expected::Line(owned(expected)),
                seen: Seen::Line(owned(seen)),
            },
            Difference::End { line, expected } => Mismatch {
                line,
                expected: Expected::Line(owned(expected)),
                seen: Seen::NoMoreLines,
            },
            Difference::Nowhere { line, expected } => Mismatch {
                line,
                expected: Expected::Line(owned(expected)),
                seen: refusal.map_or(Seen::NoSuchLine, |refusal| Seen::Refusal(owned(refusal))),
            },
            Difference::More { line, seen } => Mismatch {
                line,
                expected: Expected::NoMoreLines,
                seen: Seen::Line(owned(seen)),
            },
            Difference::Printed { line, text } => Mismatch {
                line,
                expected: Expected::NoSuchLine(owned(text)),
                seen: Seen::Line(owned(text)),
            },
        }
    }
}

impl fmt::Display for Expected {
    fn fmt(&self, formatter: &mut fmt::Formatter<'_>) -> fmt::Result {
        match self {
            Expected::Line(line) => formatter.write_str(line),
            Expected::NoMoreLines => formatter.write_str("no more lines"),
            Expected::NoSuchLine(line) => write!(formatter, "no line {line}"),
        }
    }
}

impl fmt::Display for Seen {
    fn fmt(&self, formatter: &mut fmt::Formatter<'_>) -> fmt::Result {
        formatter.write_str(match self {
            Seen::Line(line) | Seen::Refusal(line) => line,
            Seen::NoMoreLines => "no more lines",
            Seen::NoSuchLine => "no such line",
        })
    }
}
