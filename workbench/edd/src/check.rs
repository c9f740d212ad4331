//! What is wrong with a source, and what is almost certainly a mistake.

use edd_check::Levels;
use edd_report::Kind;
use edd_source::Span;
use std::ops::Range;

/// What `check` reports of a source.
#[derive(Clone, Debug, PartialEq, Eq)]
pub struct Report {
    /// Whether `compile` refuses the source.
    pub is_refused: bool,
    /// What is reported, in order. Of a source that is refused the first has the words of the
    /// refusal.
    pub diagnostics: Vec<Diagnostic>,
    /// How many more there are.
    pub more: usize,
}

/// What is wrong at a place.
#[derive(Clone, Debug, PartialEq, Eq)]
pub struct Diagnostic {
    /// Whether the source is refused for it.
    pub severity: Severity,
    /// The number of the refusal; a warning has none.
    pub number: Option<u16>,
    /// The kind of the refusal, as docs/REFUSALS.md lists it, or the name of the lint, as
    /// docs/WARNINGS.md lists it.
    pub name: &'static str,
    /// The bytes of the source that it is about, if there are any.
    pub range: Option<Range<usize>>,
    /// The words of the refusal or of the warning.
    pub message: String,
    /// What helps, the most likely first.
    pub hints: Vec<String>,
    /// Other places that it is about.
    pub related: Vec<Related>,
    /// Changes that mend it, the most likely first.
    pub fixes: Vec<Fix>,
}

/// Whether a source is refused for a diagnostic.
#[derive(Clone, Copy, Debug, PartialEq, Eq, Hash)]
pub enum Severity {
    /// The source is refused.
    Refused,
    /// The source is accepted, and this is almost certainly a mistake.
    Warning,
}

/// What a diagnostic says of another place.
#[derive(Clone, Debug, PartialEq, Eq)]
pub struct Related {
    /// The bytes of the source.
    pub range: Range<usize>,
    /// What is said of them.
    pub message: String,
}

/// A change of the source that mends what is wrong.
#[derive(Clone, Debug, PartialEq, Eq)]
pub struct Fix {
    /// What it does, in words.
    pub message: String,
    /// The changes, in the order of the source and apart from each other.
    pub edits: Vec<Edit>,
    /// Whether it is what was meant. Others are only to be shown.
    pub is_sure: bool,
}

/// Bytes of the source become a text.
#[derive(Clone, Debug, PartialEq, Eq)]
pub struct Edit {
    /// What is replaced; an empty range inserts.
    pub range: Range<usize>,
    /// What stands there then.
    pub text: String,
}

/// Reports what is wrong with a source. It is refused exactly where [`compile`](crate::compile)
/// refuses it.
///
/// ```
/// let source = b"MANUFACTURER 1, DEVICE_TYPE 2, DEVICE_REVISION 3, DD_REVISION 4
/// VARIABLE p { LABEL \"Pressure\" TYPE INTEGER (2); }";
/// let report = edd::check(source);
/// assert!(report.is_refused);
/// let first = &report.diagnostics[0];
/// assert_eq!((first.number, first.name), (Some(10), "SYNTAX"));
/// assert_eq!((first.message.as_str(), first.range.clone()), ("10 SYNTAX line 2", Some(93..93)));
/// assert_eq!(first.hints, ["a ; is missing here"]);
/// assert_eq!((first.fixes[0].edits[0].text.as_str(), first.fixes[0].is_sure), (";", true));
/// ```
pub fn check(source: &[u8]) -> Report {
    let report = edd_check::check(source, &Levels::default());
    Report {
        is_refused: report.is_refused,
        diagnostics: report.shown.iter().map(Diagnostic::from).collect(),
        more: report.more,
    }
}

impl From<&edd_report::Diagnostic> for Diagnostic {
    fn from(diagnostic: &edd_report::Diagnostic) -> Diagnostic {
        let (severity, name) = match &diagnostic.kind {
            Kind::Refused(refusal) => (Severity::Refused, refusal.name()),
            Kind::Warned(warning) => (Severity::Warning, warning.lint().name()),
        };
        let here = diagnostic.helps.iter().filter(|help| help.span.is_none());
        let related = diagnostic.related().map(|(span, help)| Related {
            range: span.range(),
            message: help.advice.to_string(),
        });
        Diagnostic {
            severity,
            number: diagnostic.number(),
            name,
            range: diagnostic.span.map(Span::range),
            message: diagnostic.kind.to_string(),
            hints: here.map(|help| help.advice.to_string()).collect(),
            related: related.collect(),
            fixes: diagnostic.helps.iter().filter_map(fix_of).collect(),
        }
    }
}

// The change that a help says.
fn fix_of(help: &edd_helps::Help) -> Option<Fix> {
    let fix = help.fix.as_ref()?;
    let edits = fix.edits.iter().map(|edit| Edit {
        range: edit.span.range(),
        text: edit.text.clone(),
    });
    Some(Fix {
        message: help.advice.to_string(),
        edits: edits.collect(),
        is_sure: fix.confidence == edd_source::Confidence::Sure,
    })
}
