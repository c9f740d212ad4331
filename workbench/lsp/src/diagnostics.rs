//! What is wrong with a document, as an editor is told.

use crate::answers::{Code, Diagnostic, Diagnostics, Related};
use crate::view::View;
use edd_helps::Help;
use edd_report::{Kind, Severity};
use edd_source::Span;

/// Who says what is wrong.
const SOURCE: &str = "edd";

/// Where what has no place is shown.
const BEGINNING: Span = Span { start: 0, end: 0 };

/// How bad it is, as the protocol counts it.
const ERROR: u8 = 1;
const WARNING: u8 = 2;
const INFORMATION: u8 = 3;

impl View<'_> {
    /// All that is wrong with the document.
    pub(crate) fn diagnostics(self) -> Diagnostics {
        Diagnostics {
            uri: self.uri.to_owned(),
            version: self.open.version,
            diagnostics: self.all_diagnostics(),
        }
    }

    pub(crate) fn all_diagnostics(self) -> Vec<Diagnostic> {
        if !self.open.document.is_description() {
            let found = self.others.project().findings(&self.open.path);
            return found.iter().map(|found| self.diagnostic(found)).collect();
        }
        let report = self.open.document.report();
        let shown = report.shown.iter().map(|found| self.diagnostic(found));
        let more = (report.more > 0).then(|| self.more(report.more));
        shown.chain(more).collect()
    }

    /// How many more findings there are than are shown.
    fn more(self, more: usize) -> Diagnostic {
        Diagnostic {
            range: self.range(BEGINNING),
            severity: INFORMATION,
            code: None,
            source: SOURCE,
            message: format!("{more} more are not shown"),
            related_information: Vec::new(),
        }
    }

    /// What is wrong at a place. The helps that speak of another place come apart, if the editor shows
    /// these.
    pub(crate) fn diagnostic(self, found: &edd_report::Diagnostic) -> Diagnostic {
        let mut message = message_of(&found.kind);
        let mut related = Vec::new();
        for help in &found.helps {
            match help.span {
                Some(span) if self.client.has_related => related.push(Related {
                    location: self.location(span),
                    message: help.advice.to_string(),
                }),
                _ => message.push_str(&self.help_line(help)),
            }
        }
        Diagnostic {
            range: self.range(found.span.unwrap_or(BEGINNING)),
            severity: match found.severity() {
                Severity::Refused | Severity::Denied => ERROR,
                Severity::Warning => WARNING,
            },
            code: code_of(found),
            source: SOURCE,
            message,
            related_information: related,
        }
    }

    /// A line of help, with the place that it speaks of.
    fn help_line(self, help: &Help) -> String {
        let advice = format!("\nhelp: {}", help.advice);
        let Some(span) = help.span else {
            return advice;
        };
        let at = self.range(span).start;
        let (line, column) = (at.line.saturating_add(1), at.character.saturating_add(1));
        format!("{advice} at {line}:{column}")
    }
}

fn message_of(kind: &Kind) -> String {
    match kind {
        Kind::Refused(refusal) if refusal.detail().is_empty() => refusal.name().to_owned(),
        Kind::Refused(refusal) => format!("{} {}", refusal.name(), refusal.detail()),
        Kind::Warned(warning) => warning.kind.to_string(),
    }
}

fn code_of(found: &edd_report::Diagnostic) -> Option<Code> {
    let number = found.number().map(Code::Number);
    number.or_else(|| found.lint().map(Code::Name))
}
