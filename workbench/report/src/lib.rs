//! What is wrong with a source, as data, and as what is printed of it.
//!
//! A [`Diagnostic`] says what is wrong at a place and what helps. A [`Report`] has those of a source.
//! With the [`Source`](edd_source::Source) it prints as text, as lines of JSON, as SARIF, and, with
//! the feature `rich`, as excerpts:
//!
//! ```
//! use edd_helps::{Finding, Slip};
//! use edd_report::{Diagnostic, Refusal, Report, Style, text};
//! use edd_source::{Source, Span};
//!
//! let mut finding = Finding::at(Some(Span { start: 10, end: 10 }));
//! finding.say(Slip::SemicolonHere);
//! let mut report = Report::default();
//! report.show(Diagnostic::refused(Refusal::on_line(10, "SYNTAX", 1), finding));
//!
//! let source = Source::new("p.edd", b"LABEL \"p\" TYPE INTEGER;");
//! assert_eq!(
//!     text(&source, &report, Style::Plain),
//!     "p.edd:1:11: refused 10 SYNTAX line 1\nLABEL \"p\" TYPE INTEGER;\n          ^\n\
//!      help: a ; is missing here\n",
//! );
//! ```

mod diagnostic;
mod json;
mod refusal;
mod report;
#[cfg(feature = "rich")]
mod rich;
mod sarif;
mod text;

pub use diagnostic::{Diagnostic, Kind, Severity, Warning};
pub use json::json_lines;
pub use refusal::Refusal;
pub use report::{MOST, Report};
#[cfg(feature = "rich")]
pub use rich::rich;
pub use sarif::sarif;
pub use text::{Style, text};
