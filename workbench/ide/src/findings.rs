//! What is wrong with a file of tests or a script.

use crate::project::Project;
use crate::sheet::Sheet;
use core_std::alloc::Global;
use edd_helps::{Finding, NameHelp, Wrong, explain_script_line, nearest_method, nearest_variable};
use edd_loader::{Image, load};
use edd_report::{Diagnostic, Refusal};
use edd_source::{Confidence, Fix, Span};
use edd_syntax::numbers::{ItemNo, Kind};
use edd_testing::{NameSort, TestFault, TestName};
use std::collections::BTreeMap;

/// The most findings that are shown of a file.
const MOST_FINDINGS: usize = 100;

/// How many names are compared at most while a file is looked at: what is behind that is not looked at.
const MOST_COMPARED: usize = 10_000_000;

/// What of a file names items of one description.
#[derive(Debug, Default)]
struct Parts {
    /// The lines of scripts.
    lines: Vec<Span>,
    /// The names of methods that run, and of items in lines that are expected.
    names: Vec<TestName>,
}

/// What a file of tests is refused with.
fn refusal_of(fault: TestFault) -> Option<Refusal> {
    let (number, name) = match fault {
        TestFault::NoText => (290, "NO_TEXT"),
        TestFault::UnknownLine => (291, "UNKNOWN_LINE"),
        TestFault::BadWords => (292, "BAD_WORDS"),
        TestFault::BeforeTest => (293, "BEFORE_TEST"),
        TestFault::Twice => (294, "TWICE"),
        TestFault::BothForms => (295, "BOTH_FORMS"),
        TestFault::Misplaced => (296, "MISPLACED"),
        TestFault::NothingToRun => (297, "NOTHING_TO_RUN"),
        TestFault::NoSource => (298, "NO_SOURCE"),
        TestFault::NoTests => (299, "NO_TESTS"),
        TestFault::Memory => return None,
    };
    Some(Refusal::new(number, name, ""))
}

impl<'p> Project<'p> {
    /// What is wrong with a file of tests or a script: lines that are refused, and names of items
    /// that its description does not have, also in lines that are expected. Where the description is not
    /// there or is refused itself nothing is said of names, and nothing of a test that expects that its
    /// run is refused.
    ///
    /// ```
    /// use edd_ide::{Document, Project};
    ///
    /// let head = "MANUFACTURER 1, DEVICE_TYPE 2, DEVICE_REVISION 3, DD_REVISION 4\n";
    /// let tank = Document::new([head, "VARIABLE level { TYPE INTEGER; }"].concat());
    /// let script = Document::named("tank.script", "set levl 5\n");
    /// let project = Project::new([("tank.edd", &tank), ("tank.script", &script)]);
    /// let [found] = &project.findings("tank.script")[..] else { panic!() };
    /// assert_eq!((found.number(), found.span.unwrap().range()), (Some(300), 4..8));
    /// ```
    pub fn findings(&self, path: &str) -> Vec<Diagnostic> {
        let Some(document) = self.document(path) else {
            return Vec::new();
        };
        let Some(sheet) = document.sheet() else {
            return Vec::new();
        };
        let faults = sheet.faults.iter().filter_map(|(span, fault)| {
            let span = without_end(*span, document.text());
            let finding = Finding::at(Some(span));
            Some(Diagnostic::refused(refusal_of(*fault)?, finding))
        });
        let mut found: Vec<_> = faults.collect();
        for (description, parts) in self.parts_of(path, sheet) {
            found.extend(self.check_parts(description, document.text(), &parts));
        }
        found.sort_by_key(|it| it.span.map(|span| span.start));
        found.truncate(MOST_FINDINGS);
        found
    }

    /// What is to be looked at, by the descriptions. A test that expects that its run is refused is
    /// left out.
    fn parts_of(&self, path: &str, sheet: &Sheet) -> BTreeMap<&'p str, Parts> {
        let tests = 0..sheet.tests.len();
        let of_tests: Vec<_> = tests
            .map(|test| self.described_by(path, Some(test)))
            .collect();
        let own = self.described_by(path, None);
        let mut parts: BTreeMap<&str, Parts> = BTreeMap::new();
        let looked_at = |test: usize| sheet.tests.get(test).filter(|test| !test.is_refused);
        for line in &sheet.lines {
            let description = match line.test {
                Some(test) => looked_at(test).and(of_tests.get(test).copied().flatten()),
                None => own,
            };
            if let Some(description) = description {
                parts.entry(description).or_default().lines.push(line.span);
            }
        }
        for (test, description) in of_tests.iter().enumerate() {
            let names = looked_at(test).map_or(&[][..], |test| &test.names);
            if let Some(description) = description {
                let parts = parts.entry(description).or_default();
                parts
                    .names
                    .extend(names.iter().filter(|name| is_sure(name.sort)));
            }
        }
        parts
    }

    /// Looks at what names items of one description, where it is accepted.
    fn check_parts(&self, description: &str, text: &str, parts: &Parts) -> Vec<Diagnostic> {
        let document = self.document(description);
        let image = document.and_then(|document| load(Global, document.image()?).ok());
        let (Some(document), Some(image)) = (document, image) else {
            return Vec::new();
        };
        // Each name is compared with those of all items.
        let count = document.items().len();
        let most = MOST_COMPARED.checked_div(count).unwrap_or(MOST_COMPARED);
        let lines = parts.lines.iter().take(most);
        let names = parts.names.iter().take(most);
        let in_lines = lines.filter_map(|line| wrong_in(&image, text, *line));
        let in_names = names.filter_map(|name| unknown_name(&image, text, *name));
        let in_lines = in_lines.take(MOST_FINDINGS);
        in_lines.chain(in_names.take(MOST_FINDINGS)).collect()
    }
}

/// Whether a name has to be one of the description, so that the test fails where it is none. Lines of
/// scripts are looked at whole, and not name by name.
fn is_sure(sort: NameSort) -> bool {
    matches!(sort, NameSort::Method | NameSort::Printed(Some(_)))
}

fn kind_of(item: ItemNo) -> Kind {
    match item {
        ItemNo::Variable(_) => Kind::Variable,
        ItemNo::Command(_) => Kind::Command,
        ItemNo::Menu(_) => Kind::Menu,
        ItemNo::Collection(_) => Kind::Collection,
        ItemNo::Method(_) => Kind::Method,
        ItemNo::Array(_) => Kind::Array,
    }
}

/// A name in a test that a description does not have.
fn unknown_name(image: &Image<'_>, text: &str, named: TestName) -> Option<Diagnostic> {
    let name = named.span.text(text)?;
    let (kind, refusal) = match named.sort {
        NameSort::Method => (Kind::Method, Refusal::new(301, "NO_METHOD", name)),
        NameSort::Printed(Some(kind)) => (kind, Refusal::new(21, "UNKNOWN_NAME", name)),
        NameSort::Variable | NameSort::Printed(None) | NameSort::Absent(_) => return None,
    };
    if image.find(name).map(kind_of) == Some(kind) {
        return None;
    }
    let near = match kind {
        Kind::Method => nearest_method(image, name),
        Kind::Variable => nearest_variable(image, name),
        _ => None,
    };
    let mut finding = Finding::at(Some(named.span));
    if let Some(near) = near {
        let fix = Fix::replace(named.span, near, Confidence::Guess);
        let near = near.to_owned();
        finding.propose(NameHelp::Meant { near }, Some(fix));
    }
    Some(Diagnostic::refused(refusal, finding))
}

/// A span of a line without what ends it.
fn without_end(span: Span, text: &str) -> Span {
    let line = span.text(text).unwrap_or_default();
    let length = line.trim_end_matches(['\r', '\n']).len();
    Span {
        end: span.start.saturating_add(length),
        ..span
    }
}

/// What is wrong with a line of a script.
fn wrong_in(image: &Image<'_>, text: &str, line: Span) -> Option<Diagnostic> {
    let (wrong, finding) = explain_script_line(image, line.text(text)?.as_bytes())?;
    let refusal = match wrong {
        Wrong::Line => Refusal::new(300, "SCRIPT", ""),
        Wrong::Range => Refusal::new(202, "RANGE", ""),
        Wrong::Answer => Refusal::new(207, "OUT_OF_RANGE", ""),
    };
    let finding = finding.moved(0, line.start);
    Some(Diagnostic::refused(refusal, finding))
}

#[cfg(test)]
mod tests {
    use super::*;

    #[test]
    fn faults_have_their_numbers_and_names() {
        for fault in [
            TestFault::NoText,
            TestFault::UnknownLine,
            TestFault::BadWords,
            TestFault::BeforeTest,
            TestFault::Twice,
            TestFault::BothForms,
            TestFault::Misplaced,
            TestFault::NothingToRun,
            TestFault::NoSource,
            TestFault::NoTests,
        ] {
            let refusal = refusal_of(fault).unwrap();
            assert_eq!(refusal.to_string(), fault.to_string());
        }
    }
}
