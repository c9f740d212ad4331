//! Lines for a reader.

use crate::{Diagnostic, Report, Severity};
use edd_helps::Help;
use edd_source::{Origin, Source, Spot};

/// The most signs below a line.
const MOST_CARETS: usize = 80;

/// Whether lines have the colours of a terminal.
#[derive(Clone, Copy, Debug, PartialEq, Eq)]
pub enum Style {
    /// No colours.
    Plain,
    /// Bold places, red for what is refused, yellow for a warning, and green carets.
    Coloured,
}

/// What a style has a colour for.
#[derive(Clone, Copy)]
enum Part {
    Place,
    Severity(Severity),
    Carets,
}

/// What is wrong with a source as lines: each diagnostic with the line of the source, carets under
/// its place, and what helps.
pub fn text(source: &Source<'_>, report: &Report, style: Style) -> String {
    let mut text: String = report
        .shown
        .iter()
        .map(|diagnostic| lines_of(source, diagnostic, style))
        .collect();
    if 0 < report.more {
        text.push_str(&format!("{}: {} more\n", source.name, report.more));
    }
    text
}

// The lines of one diagnostic.
fn lines_of(source: &Source<'_>, diagnostic: &Diagnostic, style: Style) -> String {
    let spot = diagnostic.span.map(|span| source.spot(span));
    let mut lines = first_line(source, diagnostic, spot, style);
    if let Some(spot) = spot {
        lines.push_str(&excerpt(spot, style));
        // What stands in the text where a macro stands in the file.
        if let Some(made) = spot.made {
            lines.push_str(&format!("help: the preprocessor made `{made}` of it\n"));
        }
    }
    lines.extend(diagnostic.helps.iter().map(|help| help_line(source, help)));
    lines
}

// The first line, with what is wrong at a place.
fn first_line(
    source: &Source<'_>,
    diagnostic: &Diagnostic,
    spot: Option<Spot<'_>>,
    style: Style,
) -> String {
    let place = match spot {
        Some(spot) => format!("{}:{}:{}", spot.file, spot.line, spot.column),
        None => source.name.to_owned(),
    };
    let severity = diagnostic.severity();
    let place = style.paint(Part::Place, &place);
    let word = style.paint(Part::Severity(severity), severity.word());
    let lint = diagnostic
        .lint()
        .map_or_else(String::new, |lint| format!("{lint} "));
    format!("{place}: {word} {lint}{}\n", diagnostic.kind)
}

// The line of the source, and carets under the place.
fn excerpt(spot: Spot<'_>, style: Style) -> String {
    if spot.text.is_empty() {
        return String::new();
    }
    // As much room as the text takes: a TAB stays, so that the caret is below its place.
    let room: String = spot
        .before
        .chars()
        .map(|character| if character == '\t' { '\t' } else { ' ' })
        .collect();
    let carets = "^".repeat(spot.width.clamp(1, MOST_CARETS));
    let carets = style.paint(Part::Carets, &carets);
    format!("{}\n{room}{carets}\n", spot.text)
}

fn help_line(source: &Source<'_>, help: &Help) -> String {
    let at = help.span.map_or_else(String::new, |span| {
        let spot = source.spot(span);
        match source.lines.place(span.start).origin {
            Some(Origin {
                file: Some(file),
                line,
            }) => format!(" at {file}:{line}:{}", spot.column),
            _ => format!(" at {}:{}", spot.line, spot.column),
        }
    });
    format!("help: {}{at}\n", help.advice)
}

impl Style {
    fn paint(self, part: Part, text: &str) -> String {
        if self == Style::Plain {
            return text.to_owned();
        }
        let colour = match part {
            Part::Place => "1",
            Part::Severity(Severity::Refused | Severity::Denied) => "1;31",
            Part::Severity(Severity::Warning) => "1;33",
            Part::Carets => "1;32",
        };
        format!("\x1b[{colour}m{text}\x1b[0m")
    }
}
