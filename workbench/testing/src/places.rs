//! A file of tests with the places of its names. The core reads the lines; what it refuses is left out,
//! so that the other tests of a file that is being written have their places.

use crate::pieces::Pieces;
use crate::printed::names_printed;
use core_std::alloc::Global;
use edd_cases::{
    Case, Description, Kind, Line, Says, Seen, TestFault, Tests, read_tests, without_end,
};
use edd_helps::script_names;
use edd_outcomes::refusal_in;
use edd_source::Span;
use edd_syntax::numbers::Kind as ItemKind;

/// How many lines that are refused are left out. A file with more has no tests.
const MOST_FAULTS: usize = 16;

/// A file of tests with the places of its names.
///
/// ```
/// use edd_testing::TestFile;
///
/// let text = "source tank.edd\ntest a tank with room\nmethod check\nset height 2000\n= value height 2000\n";
/// let file = TestFile::read(text);
/// let names: Vec<_> = file.tests[0].names.iter().map(|name| &text[name.span.range()]).collect();
/// assert_eq!(names, ["check", "height", "height"]);
/// assert_eq!(file.tests[0].source.as_deref(), Some("tank.edd"));
/// ```
#[derive(Clone, Debug, Default)]
pub struct TestFile {
    /// The tests, in their order.
    pub tests: Vec<TestPlaces>,
    /// The names of sources and devices, in their order.
    pub files: Vec<Span>,
    /// What is refused, with the place of the line; the first is that of the file.
    pub faults: Vec<(Span, TestFault)>,
}

/// A test with the places of its names.
#[derive(Clone, Debug)]
pub struct TestPlaces {
    /// The place of its name.
    pub name: Span,
    /// The file of its source; none where it tests an image.
    pub source: Option<String>,
    /// The file of the simulated device.
    pub device: Option<String>,
    /// The lines of its script.
    pub script: Vec<Span>,
    /// What it names of its source, in order.
    pub names: Vec<TestName>,
    /// Whether it expects that the run is refused.
    pub is_refused: bool,
}

/// A name in a test.
#[derive(Clone, Copy, Debug, PartialEq, Eq)]
pub struct TestName {
    /// Its place.
    pub span: Span,
    /// What it names.
    pub sort: NameSort,
}

/// What a name in a test stands for.
#[derive(Clone, Copy, Debug, PartialEq, Eq)]
pub enum NameSort {
    /// The method that runs.
    Method,
    /// A variable that the script sets.
    Variable,
    /// An item of this kind, or of any, in a line that is printed.
    Printed(Option<ItemKind>),
    /// The same in a line that must not be printed, so that there may be no such item.
    Absent(Option<ItemKind>),
}

impl TestFile {
    /// Reads a file of tests.
    pub fn read(text: &str) -> TestFile {
        let mut pieces = Pieces::of(text);
        let mut faults = Vec::new();
        for _ in 0..MOST_FAULTS {
            let joined = pieces.joined();
            match read_tests(Global, joined.as_bytes()) {
                Ok(tests) => {
                    let mut file = gather(&tests, &pieces);
                    file.faults = faults;
                    return file;
                }
                Err(misread) => {
                    if !pieces.is_added(misread.line) {
                        faults.push((pieces.span(misread.line), misread.fault));
                    }
                    pieces.mend(misread);
                }
            }
        }
        TestFile {
            faults,
            ..TestFile::default()
        }
    }
}

/// The place of what a line says: it is at the end of the line, but for blanks.
fn span_in(line: Span, raw: &str, said: &str) -> Span {
    let text = without_end(raw);
    let text = if text.ends_with(said) {
        text
    } else {
        text.trim_end_matches(' ')
    };
    let end = line.start.saturating_add(text.len());
    Span {
        start: end.saturating_sub(said.len()),
        end,
    }
}

fn gather(tests: &Tests<'_>, pieces: &Pieces<'_>) -> TestFile {
    let mut file = TestFile::default();
    let mut number = 1;
    for line in &tests.head {
        file.add_file(pieces.span(number), line);
        number = number.saturating_add(1);
    }
    for case in &tests.cases {
        let mut test = TestPlaces::of(case);
        for line in &case.lines {
            let span = pieces.span(number);
            file.add_file(span, line);
            test.add(case.kind, span, line);
            number = number.saturating_add(1);
        }
        if !test.name.is_empty() {
            file.tests.push(test);
        }
    }
    file
}

impl TestFile {
    fn add_file(&mut self, span: Span, line: &Line<'_>) {
        if let Says::Source(name) | Says::Device(Some(name)) = line.says
            && !span.is_empty()
        {
            self.files.push(span_in(span, line.raw, name));
        }
    }
}

impl TestPlaces {
    fn of(case: &Case<'_>) -> TestPlaces {
        TestPlaces {
            name: Span::before(0),
            source: match case.description {
                Description::Source(name) => Some(name.to_owned()),
                Description::Image(_) => None,
            },
            device: case.device.map(str::to_owned),
            script: Vec::new(),
            names: Vec::new(),
            is_refused: false,
        }
    }

    /// Takes a line of the test. One that was added to what is read has no place, and no names.
    fn add(&mut self, kind: Kind<'_>, line: Span, said: &Line<'_>) {
        if line.is_empty() {
            return;
        }
        match said.says {
            Says::Test(name) => self.name = span_in(line, said.raw, name),
            Says::Method(name) => self.push(span_in(line, said.raw, name), NameSort::Method),
            Says::Script(text) => {
                let span = span_in(line, said.raw, text);
                self.script.push(span);
                for name in script_names(text) {
                    self.push(moved(name, span.start), NameSort::Variable);
                }
            }
            Says::Whole(text) | Says::Part(text) => {
                self.is_refused |= refusal_in(&[Seen { text, turn: 0 }]).is_some();
                self.push_printed(kind, span_in(line, said.raw, text), text, NameSort::Printed);
            }
            Says::Absent(text) => {
                self.push_printed(kind, span_in(line, said.raw, text), text, NameSort::Absent);
            }
            _ => {}
        }
    }

    /// Takes the names in a line that is printed, or that must not be.
    fn push_printed(
        &mut self,
        kind: Kind<'_>,
        line: Span,
        text: &str,
        sort: impl Fn(Option<ItemKind>) -> NameSort,
    ) {
        for (name, of) in names_printed(kind, text) {
            self.push(moved(name, line.start), sort(of));
        }
    }

    fn push(&mut self, span: Span, sort: NameSort) {
        self.names.push(TestName { span, sort });
    }
}

/// A span of a line as one of the text.
fn moved(span: Span, start: usize) -> Span {
    Span {
        start: span.start.saturating_add(start),
        end: span.end.saturating_add(start),
    }
}

/// What the cursor is at in a line of a test.
#[derive(Clone, Copy, Debug, PartialEq, Eq)]
pub enum Begun {
    /// The name of a method.
    Method(Span),
    /// A line of a script, from a byte on.
    Script(usize),
}

/// What is being written in a line of a test, of which only the part before the cursor is given.
///
/// ```
/// use edd_testing::{Begun, begun_in};
///
/// assert_eq!(begun_in("set fl"), Some(Begun::Script(0)));
/// assert!(matches!(begun_in("method "), Some(Begun::Method(span)) if span.range() == (7..7)));
/// ```
pub fn begun_in(before: &str) -> Option<Begun> {
    // A letter stands for what is still to be written, so that the line can be read.
    let line = [before, "x"].concat();
    ["", "open\n"].iter().find_map(|run| {
        let text = format!("source x\ntest x\n{run}{line}\n");
        let tests = read_tests(Global, text.as_bytes()).ok()?;
        let said = tests.cases.last()?.lines.last()?;
        let whole = Span {
            start: 0,
            end: line.len(),
        };
        match said.says {
            Says::Method(name) => {
                let span = span_in(whole, said.raw, name);
                let end = before.len();
                Some(Begun::Method(Span { end, ..span }))
            }
            Says::Script(text) => Some(Begun::Script(span_in(whole, said.raw, text).start)),
            _ => None,
        }
    })
}
