//! Excerpts of the source with what is wrong beside its place, by codespan-reporting.

use crate::{Diagnostic, Report, Severity, Style};
use codespan_reporting::diagnostic::{self as rich, Label};
use codespan_reporting::files::{Error, SimpleFile};
use codespan_reporting::term::termcolor::{Ansi, NoColor, WriteColor};
use codespan_reporting::term::{Config, emit};
use edd_source::Source;

/// What is wrong with a source as excerpts with labels, second places among them.
///
/// The excerpts are those of the text that was read, also where a preprocessor has left marks.
///
/// # Errors
///
/// None is known: the places lie inside of the text.
pub fn rich(source: &Source<'_>, report: &Report, style: Style) -> Result<String, Error> {
    let bytes = match style {
        Style::Plain => written(source, report, NoColor::new(Vec::new()))?.into_inner(),
        Style::Coloured => written(source, report, Ansi::new(Vec::new()))?.into_inner(),
    };
    let mut excerpts = String::from_utf8_lossy(&bytes).into_owned();
    if 0 < report.more {
        excerpts.push_str(&format!("{}: {} more\n", source.name, report.more));
    }
    Ok(excerpts)
}

fn written<W: WriteColor>(source: &Source<'_>, report: &Report, mut out: W) -> Result<W, Error> {
    let text = String::from_utf8_lossy(source.lines.text());
    let file = SimpleFile::new(source.name, text);
    for diagnostic in &report.shown {
        emit(&mut out, &Config::default(), &file, &rich_of(diagnostic))?;
    }
    Ok(out)
}

fn rich_of(diagnostic: &Diagnostic) -> rich::Diagnostic<()> {
    let shape = match diagnostic.severity() {
        Severity::Refused | Severity::Denied => rich::Diagnostic::error(),
        Severity::Warning => rich::Diagnostic::warning(),
    };
    let code = match (diagnostic.number(), diagnostic.lint()) {
        (Some(number), _) => number.to_string(),
        (None, lint) => lint.unwrap_or_default().to_owned(),
    };
    let message = match diagnostic.refusal() {
        Some(refusal) => format!("{} {}", refusal.name(), refusal.detail()),
        None => diagnostic.kind.to_string(),
    };
    let first = diagnostic.span.map(|span| Label::primary((), span.range()));
    let others = diagnostic.related().map(|(span, help)| {
        Label::secondary((), span.range()).with_message(help.advice.to_string())
    });
    let notes = diagnostic.helps.iter().filter(|help| help.span.is_none());
    shape
        .with_code(code)
        .with_message(message.trim_end())
        .with_labels(first.into_iter().chain(others).collect())
        .with_notes(notes.map(|help| format!("help: {}", help.advice)).collect())
}
