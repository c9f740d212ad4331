//! A report as a document of JUnit, which servers of continuous integration read.

use crate::{Event, Mismatch, Report, Summary, Verdict};
use edd_cases::Misread;
use edd_outcomes::{Counts, Outcome, count};
use std::fmt::{self, Display, Write as _};
use std::io::{self, Write};

/// Prints a document at the end: a `testsuite` for each file, and in it a `testcase` for each test
/// that was run. A file that is refused is a `testcase` with an `error`.
#[derive(Debug)]
pub struct JUnit<W> {
    output: W,
    suites: Vec<Suite>,
}

/// The tests of a file. The same file can be named twice.
#[derive(Debug)]
struct Suite {
    file: String,
    cases: Vec<Case>,
}

#[derive(Debug)]
struct Case {
    name: String,
    result: Result<Verdict, Misread>,
}

impl<W: Write> JUnit<W> {
    /// Nothing is printed before the end.
    pub fn new(output: W) -> JUnit<W> {
        JUnit {
            output,
            suites: Vec::new(),
        }
    }

    fn push(&mut self, file: &str, name: &str, result: Result<Verdict, Misread>) {
        let case = Case {
            name: name.to_owned(),
            result,
        };
        match self.suites.last_mut().filter(|suite| suite.file == file) {
            Some(suite) => suite.cases.push(case),
            None => self.suites.push(Suite {
                file: file.to_owned(),
                cases: vec![case],
            }),
        }
    }
}

impl<W: Write> Report for JUnit<W> {
    fn add(&mut self, event: Event<'_>) -> io::Result<()> {
        match event {
            Event::Tested {
                file,
                name,
                verdict,
            } => self.push(file, name, Ok(verdict.clone())),
            Event::Refused { file, misread } => self.push(file, file, Err(misread)),
            Event::Updated { .. } => {}
        }
        Ok(())
    }

    fn finish(&mut self, _summary: Summary) -> io::Result<()> {
        let counts = Attributes::of(self.suites.iter().flat_map(|suite| &suite.cases));
        writeln!(self.output, r#"<?xml version="1.0" encoding="UTF-8"?>"#)?;
        writeln!(self.output, "<testsuites {counts}>")?;
        for suite in &self.suites {
            write!(self.output, "{suite}")?;
        }
        writeln!(self.output, "</testsuites>")
    }
}

impl Case {
    fn outcome(&self) -> Outcome {
        match self.result {
            Ok(Verdict::Passed) => Outcome::Passed,
            Ok(Verdict::Failed(_)) => Outcome::Failed,
            Err(_) => Outcome::Refused,
        }
    }
}

/// The numbers of test cases, and of those that failed and were refused, as attributes.
struct Attributes(Counts);

impl Attributes {
    fn of<'c>(cases: impl Iterator<Item = &'c Case>) -> Attributes {
        let outcomes: Vec<Outcome> = cases.map(Case::outcome).collect();
        Attributes(count(&outcomes))
    }
}

impl Display for Attributes {
    fn fmt(&self, formatter: &mut fmt::Formatter<'_>) -> fmt::Result {
        let Counts {
            passed,
            failed,
            refused,
            ..
        } = self.0;
        let tests = passed.saturating_add(failed).saturating_add(refused);
        write!(
            formatter,
            r#"tests="{tests}" failures="{failed}" errors="{refused}""#
        )
    }
}

impl Display for Suite {
    fn fmt(&self, formatter: &mut fmt::Formatter<'_>) -> fmt::Result {
        let file = Escaped(&self.file);
        let counts = Attributes::of(self.cases.iter());
        writeln!(formatter, r#"  <testsuite name="{file}" {counts}>"#)?;
        for case in &self.cases {
            let name = Escaped(&case.name);
            write!(
                formatter,
                r#"    <testcase classname="{file}" name="{name}""#
            )?;
            match &case.result {
                Ok(Verdict::Passed) => writeln!(formatter, "/>")?,
                Ok(Verdict::Failed(mismatch)) => write_failure(formatter, mismatch)?,
                Err(misread) => write_error(formatter, misread)?,
            }
        }
        writeln!(formatter, "  </testsuite>")
    }
}

fn write_failure(formatter: &mut fmt::Formatter<'_>, mismatch: &Mismatch) -> fmt::Result {
    let line = mismatch.line;
    let expected = mismatch.expected.to_string();
    let seen = mismatch.seen.to_string();
    let (expected, seen) = (Escaped(&expected), Escaped(&seen));
    writeln!(formatter, ">")?;
    writeln!(
        formatter,
        r#"      <failure message="line {line} differs">line {line}: expected {expected}"#
    )?;
    writeln!(formatter, "line {line}: seen {seen}</failure>")?;
    writeln!(formatter, "    </testcase>")
}

fn write_error(formatter: &mut fmt::Formatter<'_>, misread: &Misread) -> fmt::Result {
    let Misread { line, fault } = misread;
    writeln!(formatter, ">")?;
    writeln!(
        formatter,
        r#"      <error message="refused {fault}">line {line}: refused {fault}</error>"#
    )?;
    writeln!(formatter, "    </testcase>")
}

/// A text in a document of XML. Characters that no such document may have are written as in Rust.
struct Escaped<'a>(&'a str);

impl Display for Escaped<'_> {
    fn fmt(&self, formatter: &mut fmt::Formatter<'_>) -> fmt::Result {
        for character in self.0.chars() {
            match character {
                '&' => formatter.write_str("&amp;")?,
                '<' => formatter.write_str("&lt;")?,
                '>' => formatter.write_str("&gt;")?,
                '"' => formatter.write_str("&quot;")?,
                '\t' => formatter.write_str("&#9;")?,
                '\r' => formatter.write_str("&#13;")?,
                '\u{fffe}' | '\u{ffff}' => write!(formatter, "{}", character.escape_unicode())?,
                _ if character.is_control() => write!(formatter, "{}", character.escape_unicode())?,
                _ => formatter.write_char(character)?,
            }
        }
        Ok(())
    }
}

#[cfg(test)]
mod tests {
    use super::*;
    use crate::{Expected, Seen, TestFault};

    #[test]
    fn texts_are_escaped() {
        let escaped = Escaped("a<b> & \"c\"\t\u{1b}[0m\u{ffff} ä").to_string();
        assert_eq!(
            escaped,
            "a&lt;b&gt; &amp; &quot;c&quot;&#9;\\u{1b}[0m\\u{ffff} ä"
        );
    }

    #[test]
    fn a_document_has_a_suite_for_each_file() {
        let mut report = JUnit::new(Vec::new());
        let failed = Verdict::Failed(Mismatch {
            line: 4,
            expected: Expected::Line("a < b".to_owned()),
            seen: Seen::NoMoreLines,
        });
        let misread = Misread {
            line: 3,
            fault: TestFault::UnknownLine,
        };
        let tested = |name, verdict| Event::Tested {
            file: "one",
            name,
            verdict,
        };
        report.add(tested("first", &Verdict::Passed)).unwrap();
        report.add(tested("second", &failed)).unwrap();
        let refused = Event::Refused {
            file: "two",
            misread,
        };
        report.add(refused).unwrap();
        report.finish(Summary(count(&[]))).unwrap();
        assert_eq!(
            String::from_utf8(report.output).unwrap(),
            r#"<?xml version="1.0" encoding="UTF-8"?>
<testsuites tests="3" failures="1" errors="1">
  <testsuite name="one" tests="2" failures="1" errors="0">
    <testcase classname="one" name="first"/>
    <testcase classname="one" name="second">
      <failure message="line 4 differs">line 4: expected a &lt; b
line 4: seen no more lines</failure>
    </testcase>
  </testsuite>
  <testsuite name="two" tests="1" failures="0" errors="1">
    <testcase classname="two" name="two">
      <error message="refused 291 UNKNOWN_LINE">line 3: refused 291 UNKNOWN_LINE</error>
    </testcase>
  </testsuite>
</testsuites>
"#
        );
    }
}
