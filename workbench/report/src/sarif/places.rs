//! Where diagnostics and helps are, as SARIF has it.

use super::document::{
    Artifact, ArtifactChange, Change, Location, Message, Physical, Region, Replacement,
};
use crate::Diagnostic;
use edd_source::{Source, Span, Spot};

/// Where a diagnostic is: without a place, in the source.
pub(super) fn first_location(source: &Source<'_>, diagnostic: &Diagnostic) -> Location {
    match diagnostic.span {
        Some(span) => location_at(source, span, None),
        None => location_of(source.name, None, None),
    }
}

/// The place in the text, where the first location is one in another file, and those of helps.
pub(super) fn related_locations(source: &Source<'_>, diagnostic: &Diagnostic) -> Vec<Location> {
    let marked = diagnostic
        .span
        .filter(|span| source.marked_file(*span).is_some());
    let read = marked.map(|span| {
        let message = Message::new("the place in the text that was read".to_owned());
        location_of(
            source.name,
            Some(region_in_text(source, span)),
            Some(message),
        )
    });
    let helps = diagnostic.related().map(|(span, help)| {
        let message = Message::new(help.advice.to_string());
        location_at(source, span, Some(message))
    });
    read.into_iter().chain(helps).collect()
}

/// The changes that mend it, in the text that was read.
pub(super) fn changes_of(source: &Source<'_>, diagnostic: &Diagnostic) -> Vec<Change> {
    let helps = diagnostic.helps.iter();
    let fixes = helps.filter_map(|help| Some((help, help.fix.as_ref()?)));
    fixes
        .map(|(help, fix)| {
            let replacements = fix.edits.iter().map(|edit| Replacement {
                deleted_region: region_in_text(source, edit.span),
                inserted_content: Message::new(edit.text.clone()),
            });
            Change {
                description: Message::new(help.advice.to_string()),
                artifact_changes: [ArtifactChange {
                    artifact_location: Artifact {
                        uri: uri_of(source.name),
                    },
                    replacements: replacements.collect(),
                }],
            }
        })
        .collect()
}

// Where a span is: in the file that a mark names, or in the text.
fn location_at(source: &Source<'_>, span: Span, message: Option<Message>) -> Location {
    if source.marked_file(span).is_some() {
        let spot = source.spot(span);
        location_of(spot.file, Some(region_in_origin(spot)), message)
    } else {
        location_of(source.name, Some(region_in_text(source, span)), message)
    }
}

fn location_of(file: &str, region: Option<Region>, message: Option<Message>) -> Location {
    Location {
        physical_location: Physical {
            artifact_location: Artifact { uri: uri_of(file) },
            region,
        },
        message,
    }
}

// The place in the text that was read.
fn region_in_text(source: &Source<'_>, span: Span) -> Region {
    let start = source.lines.place(span.start);
    let end = source.lines.place(span.end);
    Region {
        start_line: start.line,
        start_column: Some(start.column),
        end_line: Some(end.line),
        end_column: Some(end.column),
    }
}

// The place in the file that a mark names. Its columns are known where the file was read.
fn region_in_origin(spot: Spot<'_>) -> Region {
    let end = spot.column.saturating_add(spot.width);
    Region {
        start_line: spot.line,
        start_column: spot.is_original.then_some(spot.column),
        end_line: None,
        end_column: spot.is_original.then_some(end),
    }
}

// The name of a file as a reference, in which signs of other meanings stand by their numbers.
fn uri_of(name: &str) -> String {
    let mut uri = String::from(if name.starts_with('/') { "file://" } else { "" });
    for byte in name.bytes() {
        if byte.is_ascii_alphanumeric() || b"-._~/".contains(&byte) {
            uri.push(char::from(byte));
        } else {
            uri.push_str(&format!("%{byte:02X}"));
        }
    }
    uri
}
