//! Runs the tests of files.

use crate::case::run_case;
use crate::report::{Event, Report, Summary};
use crate::{Mismatch, TestError, Verdict};
use core_std::alloc::Global;
use core_std::string::String as CoreString;
use edd_cases::{Case, Misread, TestFault, Tests, push_as_it_is, push_case, read_tests};
use edd_files::{Files, Source, read_sources, save_update};
use edd_outcomes::{Outcome, Score, refusal_in};

/// The tests that are to be run.
#[derive(Clone, Copy, Debug)]
pub struct Request<'a> {
    /// The files of tests.
    pub files: &'a [&'a str],
    /// Where it is given, only the tests whose name contains it are run.
    pub filter: Option<&'a str>,
    /// Whether what was seen is written into the files in place of what was expected. The core does so
    /// only where the words of the command line have `--update` and the name of the file.
    pub is_update: bool,
    /// The words of the command line.
    pub words: &'a [CoreString],
}

/// Runs the tests of all files, and reports each as soon as it ended. All files are read first.
///
/// # Errors
///
/// A file can't be read or written, the report can't, or there is no memory.
///
/// ```
/// use edd_testing::{FileFault, Files, Lines, Request, run_tests};
///
/// /// Files in memory: one of tests, and the source that it names.
/// struct InMemory;
///
/// impl Files for InMemory {
///     type Reader = &'static [u8];
///
///     fn open(&mut self, name: &str) -> Result<&'static [u8], FileFault> {
///         match name {
///             "one.test" => Ok(b"source s\ntest it is shown\nshow\n= identification 1 2 3 4\n"),
///             "s" => Ok(b"MANUFACTURER 1, DEVICE_TYPE 2, DEVICE_REVISION 3, DD_REVISION 4"),
///             _ => Err(FileFault::Missing),
///         }
///     }
///
///     fn save(&mut self, _name: &str, _bytes: &[u8]) -> Result<(), FileFault> {
///         Err(FileFault::MayNotWrite)
///     }
/// }
///
/// let request = Request { files: &["one.test"], filter: None, is_update: false, words: &[] };
/// let mut output = Vec::new();
/// let summary = run_tests(&request, &mut InMemory, &mut Lines(&mut output))?;
/// assert!(summary.is_success());
/// assert_eq!(output, b"passed one.test: it is shown\n1 passed, 0 failed\n");
/// # Ok::<(), edd_testing::TestError>(())
/// ```
pub fn run_tests(
    request: &Request<'_>,
    files: &mut impl Files,
    report: &mut impl Report,
) -> Result<Summary, TestError> {
    let sources = read_sources(Global, request.files, files)?;
    let mut run = Run {
        request,
        files,
        report,
        score: Score::nothing(Global),
    };
    for source in &sources {
        run.run_file(source)?;
    }
    let summary = Summary(run.score.counts());
    run.report.finish(summary)?;
    Ok(summary)
}

struct Run<'r, F, R> {
    request: &'r Request<'r>,
    files: &'r mut F,
    report: &'r mut R,
    score: Score,
}

impl<F: Files, R: Report> Run<'_, F, R> {
    fn run_file(&mut self, source: &Source<'_>) -> Result<(), TestError> {
        match read_tests(Global, &source.text) {
            Ok(tests) => self.run_all(source, &tests),
            Err(Misread {
                fault: TestFault::Memory,
                ..
            }) => Err(TestError::Memory),
            Err(misread) => {
                self.score.refuse()?;
                self.report_event(Event::Refused {
                    file: source.name,
                    misread,
                })
            }
        }
    }

    /// Runs the tests of a file, and updates it where what was seen differs.
    fn run_all(&mut self, source: &Source<'_>, tests: &Tests<'_>) -> Result<(), TestError> {
        let file = source.name;
        let mut updated = CoreString::new(Global);
        push_as_it_is(&mut updated, &tests.head)?;
        for case in &tests.cases {
            if self.is_left_out(case) {
                self.score.leave_out()?;
                push_as_it_is(&mut updated, &case.lines)?;
            } else {
                self.run_one(file, case, &mut updated)?;
            }
        }
        if self.request.is_update && updated.as_bytes() != source.text.as_slice() {
            save_update(self.request.words, file, updated.as_str(), self.files)?;
            self.report_event(Event::Updated { file })?;
        }
        Ok(())
    }

    fn is_left_out(&self, case: &Case<'_>) -> bool {
        let filter = self.request.filter;
        filter.is_some_and(|text| !case.name.contains(text))
    }

    /// Runs a test, and appends its lines to the updated file.
    fn run_one(
        &mut self,
        file: &str,
        case: &Case<'_>,
        updated: &mut CoreString,
    ) -> Result<(), TestError> {
        let printed = run_case(file, case, self.files)?;
        let seen = printed.lines(Global)?;
        let compared = self
            .score
            .compare(Global, case, &seen, self.request.is_update)?;
        let is_updated = compared.outcome == Outcome::Updated;
        push_case(Global, updated, case, &seen, is_updated)?;
        let verdict = match compared.difference {
            Some(difference) if !is_updated => {
                Verdict::Failed(Mismatch::new(difference, refusal_in(&seen)))
            }
            _ => Verdict::Passed,
        };
        self.report_event(Event::Tested {
            file,
            name: case.name,
            verdict: &verdict,
        })
    }

    fn report_event(&mut self, event: Event<'_>) -> Result<(), TestError> {
        self.report.add(event)?;
        Ok(())
    }
}
