//! A document, and the editor that looks at it.

use crate::answers::{Location, TextEdit, WorkspaceEdit};
use crate::client::Client;
use crate::documents::Open;
use crate::others::Others;
use crate::positions::{Position, Range};
use edd_ide::Place;
use edd_source::{Fix, Span};
use std::collections::BTreeMap;

/// A document, and the editor that looks at it.
#[derive(Clone, Copy, Debug)]
pub(crate) struct View<'a> {
    pub(crate) uri: &'a str,
    pub(crate) open: &'a Open,
    pub(crate) client: Client,
    pub(crate) others: Others<'a>,
}

impl<'a> View<'a> {
    pub(crate) fn text(self) -> &'a str {
        self.open.document.text()
    }

    pub(crate) fn range(self, span: Span) -> Range {
        let lines = &self.open.lines;
        lines.range(self.text(), span, self.client.encoding)
    }

    /// The bytes of a range.
    pub(crate) fn span(self, range: Range) -> Span {
        Span {
            start: self.byte(range.start),
            end: self.byte(range.end),
        }
    }

    pub(crate) fn byte(self, at: Position) -> usize {
        let lines = &self.open.lines;
        lines.byte(self.text(), at, self.client.encoding)
    }

    pub(crate) fn position(self, byte: usize) -> Position {
        let lines = &self.open.lines;
        lines.position(self.text(), byte, self.client.encoding)
    }

    pub(crate) fn location(self, span: Span) -> Location {
        Location {
            uri: self.uri.to_owned(),
            range: self.range(span),
        }
    }

    pub(crate) fn edit(self, span: Span, text: impl Into<String>) -> TextEdit {
        TextEdit {
            range: self.range(span),
            new_text: text.into(),
        }
    }

    /// Places with their files.
    fn by_files<'p>(
        self,
        places: &'p [Place<'p>],
    ) -> impl Iterator<Item = (View<'a>, &'p [Place<'p>])> {
        let files = places.chunk_by(|first, second| first.path == second.path);
        files.filter_map(move |places| Some((self.others.view(places.first()?.path)?, places)))
    }

    /// Places in this file and in other ones.
    pub(crate) fn locations(self, places: &[Place<'_>]) -> Vec<Location> {
        let files = self.by_files(places);
        let locations = files.flat_map(|(view, places)| {
            let places = places.iter();
            places.map(move |place| view.location(place.span))
        });
        locations.collect()
    }

    /// Edits that put a text in these places of this file and of other ones.
    pub(crate) fn replacements(self, places: &[Place<'_>], text: &str) -> WorkspaceEdit {
        let files = self.by_files(places);
        let changes = files.map(|(view, places)| {
            let edits = places.iter().map(|place| view.edit(place.span, text));
            (view.uri.to_owned(), edits.collect())
        });
        WorkspaceEdit {
            changes: changes.collect(),
        }
    }

    /// Edits of the document.
    pub(crate) fn workspace_edit(self, edits: Vec<TextEdit>) -> WorkspaceEdit {
        WorkspaceEdit {
            changes: BTreeMap::from([(self.uri.to_owned(), edits)]),
        }
    }

    /// The edits of a fix.
    pub(crate) fn fix(self, fix: &Fix) -> WorkspaceEdit {
        let edits = fix
            .edits
            .iter()
            .map(|edit| self.edit(edit.span, &edit.text));
        self.workspace_edit(edits.collect())
    }
}
