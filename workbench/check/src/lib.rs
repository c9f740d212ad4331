//! Why a source is refused, at each place, with what helps, and what is almost certainly a mistake
//! in one that is accepted.
//!
//! The core gives the verdict, the first refusal and the rules that are broken. This package finds
//! what helps, reads the items behind a syntax error, and asks the lints:
//!
//! ```
//! use edd_check::{Levels, check};
//!
//! let source = b"MANUFACTURER 1, DEVICE_TYPE 2, DEVICE_REVISION 3, DD_REVISION 4
//! VARIABLE p { LABEL \"Pressure\" TYPE INTEGER; }";
//! let report = check(source, &Levels::default());
//! assert!(report.is_refused);
//! let first = &report.shown[0];
//! assert_eq!((first.number(), first.kind.to_string().as_str()), (Some(10), "10 SYNTAX line 2"));
//! assert_eq!(first.helps[0].advice.to_string(), "a ; is missing here");
//! ```

mod breaches;
mod core;
mod refusals;
mod sound;
mod warnings;

pub use edd_lints::{LINTS, Level, Levels, Lint};

use edd_findings::Verdict;
use edd_report::Report;
use edd_source::Source;

/// What is said of a text. It is refused exactly where the compiler refuses it, and the first refusal
/// is the compiler's.
pub fn check(text: &[u8], levels: &Levels) -> Report {
    match core::judge(text) {
        Verdict::Accepted(accepted) => {
            warnings::find(text, accepted.tokens(), accepted.description(), levels)
        }
        Verdict::Refused(refused) => {
            let (fault, _, breaches) = refused.into_parts();
            Report {
                is_refused: true,
                ..refusals::explain(text, fault, &breaches.into_real())
            }
        }
    }
}

/// A source that was checked, and what is said of it.
#[derive(Clone, Debug)]
pub struct Checked<'a> {
    /// The source by its lines.
    pub source: Source<'a>,
    /// What is said of it.
    pub report: Report,
}

impl<'a> Checked<'a> {
    /// Checks the text of the source of a name.
    pub fn of(name: &'a str, text: &'a [u8], levels: &Levels) -> Checked<'a> {
        let report = check(text, levels);
        // Where nothing is said no line of the text is shown.
        let said = if report.shown.is_empty() { b"" } else { text };
        Checked {
            source: Source::new(name, said),
            report,
        }
    }

    /// The files that marks of a preprocessor name for what is shown, each once.
    pub fn marked_files(&self) -> Vec<&'a str> {
        let mut names = Vec::new();
        let spans = self.report.shown.iter().filter_map(|found| found.span);
        for name in spans.filter_map(|span| self.source.marked_file(span)) {
            if !names.contains(&name) {
                names.push(name);
            }
        }
        names
    }
}
