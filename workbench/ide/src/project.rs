//! Files that belong together: descriptions, their devices, files of tests and scripts.

use crate::paths::{instrument_of, path_beside};
use crate::sheet::{Mention, MentionSort, Sheet};
use crate::{Document, Hover, RenameError};
use edd_source::Span;
use std::collections::{BTreeMap, BTreeSet};

/// Files that belong together, by their paths.
///
/// `a.device.edd` is the device of `a.edd`, and `a.script` and `a.b.script` are scripts for it. A file
/// of tests names its descriptions and devices. So an item of a description is named in tests and
/// scripts, and its variables are those of its device with the same name.
///
/// ```
/// use edd_ide::{Document, Project};
///
/// let tank = Document::named("tank.edd", "VARIABLE level { TYPE INTEGER; }");
/// let script = Document::named("tank.full.script", "set level 5\n");
/// let project = Project::new([("tank.edd", &tank), ("tank.full.script", &script)]);
/// let places = project.rename("tank.full.script", 5, "height").unwrap();
/// let places: Vec<_> = places.iter().map(|place| (place.path, place.span.range())).collect();
/// assert_eq!(places, [("tank.edd", 9..14), ("tank.full.script", 4..9)]);
/// ```
#[derive(Debug)]
pub struct Project<'p> {
    files: BTreeMap<&'p str, &'p Document>,
    /// Descriptions with their devices.
    pub(crate) ties: BTreeSet<(&'p str, &'p str)>,
}

/// A place in a file.
#[derive(Clone, Copy, Debug, PartialEq, Eq, PartialOrd, Ord)]
pub struct Place<'p> {
    /// The path of the file.
    pub path: &'p str,
    /// The bytes.
    pub span: Span,
}

/// Why a name is not changed, and in which file that is found.
#[derive(Clone, Copy, Debug, PartialEq, Eq)]
pub struct ProjectRenameError<'p> {
    /// The path of the file.
    pub path: &'p str,
    /// Why.
    pub error: RenameError,
}

/// An item of a file, by its place among the items.
#[derive(Clone, Copy, Debug, PartialEq, Eq, PartialOrd, Ord)]
pub(crate) struct Found<'p> {
    pub(crate) path: &'p str,
    pub(crate) item: usize,
}

impl<'p> Project<'p> {
    /// The files with these paths. Of two with one path the first counts.
    pub fn new(files: impl IntoIterator<Item = (&'p str, &'p Document)>) -> Project<'p> {
        let mut project = Project {
            files: BTreeMap::new(),
            ties: BTreeSet::new(),
        };
        for (path, document) in files {
            project.files.entry(path).or_insert(document);
        }
        project.ties = project.find_ties();
        project
    }

    fn find_ties(&self) -> BTreeSet<(&'p str, &'p str)> {
        let mut ties = BTreeSet::new();
        for (path, document) in &self.files {
            if let Some(instrument) = instrument_of(path).and_then(|it| self.known(&it)) {
                ties.insert((instrument, *path));
            }
            let pairs = document.sheet().into_iter().flat_map(|sheet| &sheet.pairs);
            ties.extend(pairs.filter_map(|(source, device)| {
                let source = self.known(source)?;
                Some((source, self.known(device)?))
            }));
        }
        ties
    }

    pub(crate) fn document(&self, path: &str) -> Option<&'p Document> {
        self.files.get(path).copied()
    }

    /// The path of a description that is there.
    fn known(&self, path: &str) -> Option<&'p str> {
        let (path, document) = self.files.get_key_value(path)?;
        document.is_description().then_some(*path)
    }

    /// The files of tests and the scripts.
    pub(crate) fn sheets(&self) -> impl Iterator<Item = (&'p str, &'p Document, &'p Sheet)> {
        let files = self.files.iter();
        files.filter_map(|(path, document)| Some((*path, *document, document.sheet()?)))
    }

    /// The description of which a file of tests, in one of its tests, or a script is.
    pub(crate) fn described_by(&self, path: &str, test: Option<usize>) -> Option<&'p str> {
        let sheet = self.document(path)?.sheet()?;
        let Some(test) = test else {
            let likely = sheet.descriptions.iter();
            return likely.into_iter().find_map(|path| self.known(path));
        };
        self.known(sheet.paths.get(test)?.source.as_deref()?)
    }

    /// Whether a description is that of a device.
    pub fn is_device(&self, path: &str) -> bool {
        instrument_of(path).is_some() || self.ties.iter().any(|(_, device)| *device == path)
    }

    /// The files of tests and the scripts that name items of a description.
    pub fn dependents(&self, path: &str) -> Vec<&'p str> {
        let sheets = self.sheets().filter(|(sheet_path, _, sheet)| {
            sheet.sources.contains(path) || self.described_by(sheet_path, None) == Some(path)
        });
        sheets.map(|(path, _, _)| path).collect()
    }

    /// What is named at a byte of a file of tests or a script.
    pub(crate) fn mention_at(&self, path: &str, byte: usize) -> Option<Mention> {
        self.document(path)?.sheet()?.mention_at(byte)
    }

    /// The item that is named there.
    pub(crate) fn item_named(&self, path: &str, mention: Mention) -> Option<Found<'p>> {
        let name = mention.span.text(self.document(path)?.text())?;
        let path = self.described_by(path, mention.test)?;
        let item = self.document(path)?.item_of(name)?;
        let kind = self.document(path)?.items().get(item)?.kind;
        mention.sort.fits(kind).then_some(Found { path, item })
    }

    /// The item that is named at a byte of any file.
    pub(crate) fn item_at(&self, path: &str, byte: usize) -> Option<Found<'p>> {
        if let Some(mention) = self.mention_at(path, byte) {
            return self.item_named(path, mention);
        }
        let (path, document) = self.files.get_key_value(path)?;
        let item = document.item_at(byte)?;
        Some(Found { path, item })
    }

    /// Where what is named at a byte is declared. The name of a file leads to its beginning, and that of
    /// a device's method to the command for which it is.
    pub fn declaration(&self, path: &str, byte: usize) -> Option<Place<'p>> {
        let (own, document) = self.files.get_key_value(path)?;
        if let Some(mention) = self.mention_at(path, byte) {
            return self.declaration_of(path, document, mention);
        }
        if let Some(command) = self.command_at(path, byte) {
            return self.place_of(command);
        }
        let span = document.declaration(byte)?;
        Some(Place { path: own, span })
    }

    fn declaration_of(
        &self,
        path: &str,
        document: &Document,
        mention: Mention,
    ) -> Option<Place<'p>> {
        if mention.sort != MentionSort::File {
            return self.place_of(self.item_named(path, mention)?);
        }
        let path = path_beside(path, mention.span.text(document.text())?);
        let span = Span::before(0);
        self.known(&path).map(|path| Place { path, span })
    }

    /// The place of the name of an item.
    pub(crate) fn place_of(&self, found: Found<'p>) -> Option<Place<'p>> {
        let Found { path, item } = found;
        let span = self.document(path)?.name_of(item)?;
        Some(Place { path, span })
    }

    /// All places where what is named at a byte is named, by their files and in their order; those of
    /// its declarations too if `declared`.
    pub fn references(&self, path: &str, byte: usize, declared: bool) -> Vec<Place<'p>> {
        let Some(item) = self.item_at(path, byte) else {
            return self.own_places(path, |document| document.references(byte, declared));
        };
        self.places_of(&self.items_with(item), declared)
    }

    /// Places in one file.
    fn own_places(
        &self,
        path: &str,
        places: impl FnOnce(&Document) -> Vec<Span>,
    ) -> Vec<Place<'p>> {
        let Some((path, document)) = self.files.get_key_value(path) else {
            return Vec::new();
        };
        let spans = places(document).into_iter();
        spans.map(|span| Place { path, span }).collect()
    }

    /// The places at which items are named.
    fn places_of(&self, items: &BTreeSet<Found<'p>>, declared: bool) -> Vec<Place<'p>> {
        let in_descriptions = items
            .iter()
            .flat_map(|found| self.own_places(found.path, |it| it.places_of(found.item, declared)));
        let mut places: Vec<_> = in_descriptions.collect();
        for (path, document, sheet) in self.sheets() {
            let named = sheet.mentions().iter().filter(|mention| {
                let name = mention.span.text(document.text()).unwrap_or_default();
                self.is_one_of(items, path, **mention, name)
            });
            let spans = named.map(|mention| mention.span);
            places.extend(spans.map(|span| Place { path, span }));
        }
        places.sort_unstable();
        places
    }

    /// Whether a name in a file of tests or a script is that of one of the items.
    pub(crate) fn is_one_of(
        &self,
        items: &BTreeSet<Found<'p>>,
        path: &str,
        mention: Mention,
        name: &str,
    ) -> bool {
        let mut alike = items.iter().filter(|found| {
            let document = self.document(found.path);
            let item = document.and_then(|it| it.items().get(found.item));
            document.is_some_and(|it| it.item_name(found.item) == name)
                && item.is_some_and(|item| mention.sort.fits(item.kind))
        });
        alike.any(|found| self.described_by(path, mention.test) == Some(found.path))
    }

    /// The place of the name at a byte, where it can be changed.
    pub fn renameable(&self, path: &str, byte: usize) -> Option<Span> {
        match self.mention_at(path, byte) {
            Some(mention) => self.item_named(path, mention).map(|_| mention.span),
            None => self.document(path)?.renameable(byte),
        }
    }

    /// The places at which the name at a byte is to be replaced by another one, by their files and in
    /// their order.
    ///
    /// # Errors
    ///
    /// Nothing is declared there, or a file would mean something else with the new name.
    pub fn rename(
        &self,
        path: &'p str,
        byte: usize,
        name: &str,
    ) -> Result<Vec<Place<'p>>, ProjectRenameError<'p>> {
        let Some(item) = self.item_at(path, byte) else {
            let error = |error| ProjectRenameError { path, error };
            let document = self.document(path);
            let document = document.ok_or_else(|| error(RenameError::NothingHere))?;
            let places = document.rename(byte, name).map_err(error)?;
            return Ok(self.own_places(path, |_| places));
        };
        let items = self.items_alike(item);
        for found in &items {
            self.try_name(*found, name)?;
        }
        if let Some(Place { path, span }) = self.find_clash(&items, name) {
            let error = RenameError::Clash(span);
            return Err(ProjectRenameError { path, error });
        }
        Ok(self.places_of(&items, true))
    }

    fn try_name(&self, found: Found<'p>, name: &str) -> Result<(), ProjectRenameError<'p>> {
        let Found { path, item } = found;
        let document = self.document(path);
        let tried = document.map(|document| document.rename_declared(item, name));
        match tried {
            Some(Err(error)) => Err(ProjectRenameError { path, error }),
            _ => Ok(()),
        }
    }

    /// What is told of a byte of any file: also of names in tests and scripts, and of a device's method
    /// the command for which it is.
    pub fn hover(&self, path: &str, byte: usize) -> Option<Hover> {
        if let Some(mention) = self.mention_at(path, byte) {
            let markdown = self.told_of(self.item_named(path, mention)?)?;
            let span = mention.span;
            return Some(Hover { span, markdown });
        }
        let mut hover = self.document(path)?.hover(byte)?;
        if let Some(command) = self.command_at(path, byte).and_then(|it| self.told_of(it)) {
            hover.markdown.push_str("\n\n");
            hover.markdown.push_str(&command);
        }
        Some(hover)
    }

    fn told_of(&self, found: Found<'p>) -> Option<String> {
        self.document(found.path)?.told_of(found.item)
    }
}
