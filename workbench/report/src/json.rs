//! Lines of JSON.

use crate::{Diagnostic, Report};
use edd_helps::Help;
use edd_source::{Confidence, Fix, Source, Span};
use serde::Serialize;

/// What is wrong as an object. `null` stands for what there is none of.
#[derive(Serialize)]
struct Object<'a> {
    source: &'a str,
    line: Option<usize>,
    column: Option<usize>,
    end_line: Option<usize>,
    end_column: Option<usize>,
    origin: Option<OriginObject<'a>>,
    severity: &'static str,
    number: Option<u16>,
    kind: Option<&'static str>,
    detail: Option<&'a str>,
    lint: Option<&'static str>,
    message: String,
    helps: Vec<HelpObject<'a>>,
    fixes: Vec<FixObject<'a>>,
}

/// A help as an object.
#[derive(Serialize)]
struct HelpObject<'a> {
    text: String,
    line: Option<usize>,
    column: Option<usize>,
    origin: Option<OriginObject<'a>>,
}

/// A change that mends what is wrong.
#[derive(Serialize)]
struct FixObject<'a> {
    text: String,
    sure: bool,
    edits: Vec<EditObject<'a>>,
}

/// What stands in the place of what.
#[derive(Serialize)]
struct EditObject<'a> {
    line: Option<usize>,
    column: Option<usize>,
    end_line: Option<usize>,
    end_column: Option<usize>,
    text: &'a str,
}

/// The file and the line that a preprocessor has marked, and where that file was read the column.
#[derive(Serialize)]
struct OriginObject<'a> {
    source: Option<&'a str>,
    line: usize,
    column: Option<usize>,
}

/// How many more there are.
#[derive(Serialize)]
struct MoreObject<'a> {
    source: &'a str,
    more: usize,
}

/// What is wrong with a source as an object of JSON on a line for each diagnostic.
///
/// # Errors
///
/// None is known: structs of strings and numbers can always be serialized.
pub fn json_lines(source: &Source<'_>, report: &Report) -> serde_json::Result<String> {
    let mut lines = String::new();
    for diagnostic in &report.shown {
        push_line(&mut lines, &object_of(source, diagnostic))?;
    }
    if 0 < report.more {
        let more = MoreObject {
            source: source.name,
            more: report.more,
        };
        push_line(&mut lines, &more)?;
    }
    Ok(lines)
}

fn push_line(lines: &mut String, object: &impl Serialize) -> serde_json::Result<()> {
    lines.push_str(&serde_json::to_string(object)?);
    lines.push('\n');
    Ok(())
}

fn object_of<'a>(source: &'a Source<'_>, diagnostic: &'a Diagnostic) -> Object<'a> {
    let span = diagnostic.span;
    let (line, column) = corner_at(source, span.map(|span| span.start));
    let (end_line, end_column) = corner_at(source, span.map(|span| span.end));
    let refusal = diagnostic.refusal();
    Object {
        source: source.name,
        line,
        column,
        end_line,
        end_column,
        origin: span.and_then(|span| origin_at(source, span)),
        severity: diagnostic.severity().word(),
        number: diagnostic.number(),
        kind: refusal.map(|refusal| refusal.name()),
        detail: refusal.map(|refusal| refusal.detail()),
        lint: diagnostic.lint(),
        message: diagnostic.kind.to_string(),
        helps: diagnostic
            .helps
            .iter()
            .map(|help| help_object(source, help))
            .collect(),
        fixes: diagnostic
            .helps
            .iter()
            .filter_map(|help| Some(fix_object(source, help, help.fix.as_ref()?)))
            .collect(),
    }
}

fn help_object<'a>(source: &'a Source<'_>, help: &Help) -> HelpObject<'a> {
    let (line, column) = corner_at(source, help.span.map(|span| span.start));
    HelpObject {
        text: help.advice.to_string(),
        line,
        column,
        origin: help.span.and_then(|span| origin_at(source, span)),
    }
}

fn fix_object<'a>(source: &'a Source<'_>, help: &Help, fix: &'a Fix) -> FixObject<'a> {
    let edits = fix.edits.iter().map(|edit| {
        let (line, column) = corner_at(source, Some(edit.span.start));
        let (end_line, end_column) = corner_at(source, Some(edit.span.end));
        EditObject {
            line,
            column,
            end_line,
            end_column,
            text: &edit.text,
        }
    });
    FixObject {
        text: help.advice.to_string(),
        sure: fix.confidence == Confidence::Sure,
        edits: edits.collect(),
    }
}

// The line and the column of a byte, where there is one.
fn corner_at(source: &Source<'_>, byte: Option<usize>) -> (Option<usize>, Option<usize>) {
    let place = byte.map(|byte| source.lines.place(byte));
    (place.map(|at| at.line), place.map(|at| at.column))
}

fn origin_at<'a>(source: &'a Source<'_>, span: Span) -> Option<OriginObject<'a>> {
    let origin = source.lines.place(span.start).origin?;
    let spot = source.spot(span);
    Some(OriginObject {
        source: origin.file,
        line: origin.line,
        column: spot.is_original.then_some(spot.column),
    })
}
