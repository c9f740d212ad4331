//! All files that the server knows: those that the editor has open, and those beside them.

use crate::client::Client;
use crate::documents::{Documents, Open};
use crate::files::{Files, NoFiles};
use crate::uri::{encoded, folder_of, is_file, path_of};
use crate::view::View;
use edd_ide::Project;
use std::collections::BTreeMap;

/// The files that were read beside those that are open, by the names that an editor would give their
/// folders and them.
#[derive(Debug)]
pub(crate) struct Beside {
    files: Box<dyn Files>,
    folders: BTreeMap<String, Documents>,
}

impl Default for Beside {
    fn default() -> Beside {
        Beside::new(Box::new(NoFiles))
    }
}

impl Beside {
    pub(crate) fn new(files: Box<dyn Files>) -> Beside {
        Beside {
            files,
            folders: BTreeMap::new(),
        }
    }

    /// Reads the files beside a document once more. Returns whether they are others than before.
    pub(crate) fn refresh(&mut self, uri: &str) -> bool {
        if !is_file(uri) {
            return false;
        }
        let folder = folder_of(uri);
        let read = self.files.read_beside(&path_of(uri));
        let before = self.folders.entry(folder.to_owned()).or_default();
        let mut old = std::mem::take(before);
        let mut is_other = old.len() != read.len();
        for file in read {
            let name = [folder, &encoded(&file.path)].concat();
            let kept = old.remove(&name);
            let kept = kept.filter(|open| open.document.text() == file.text);
            is_other |= kept.is_none();
            let open = kept.unwrap_or_else(|| Open::new(&name, file.text, None));
            before.insert(name, open);
        }
        is_other
    }

    /// Forgets the files beside a document.
    pub(crate) fn forget(&mut self, uri: &str) {
        self.folders.remove(folder_of(uri));
    }

    fn all(&self) -> impl Iterator<Item = (&String, &Open)> {
        self.folders.values().flatten()
    }
}

/// All files that the server knows.
#[derive(Clone, Copy, Debug)]
pub(crate) struct Others<'a> {
    pub(crate) documents: &'a Documents,
    pub(crate) beside: &'a Beside,
    pub(crate) client: Client,
}

impl<'a> Others<'a> {
    /// The files by their names, those that are open first.
    fn all(self) -> impl Iterator<Item = (&'a String, &'a Open)> {
        self.documents.iter().chain(self.beside.all())
    }

    pub(crate) fn project(self) -> Project<'a> {
        let files = self.all();
        Project::new(files.map(|(_, open)| (open.path.as_str(), &open.document)))
    }

    /// The file of a path.
    pub(crate) fn view(self, path: &str) -> Option<View<'a>> {
        let (uri, open) = self.all().find(|(_, open)| open.path == path)?;
        Some(View {
            uri,
            open,
            others: self,
            client: self.client,
        })
    }
}

#[cfg(test)]
mod tests {
    use super::*;
    use crate::files::Stored;

    /// In each folder one file, which has the path of the folder as its text.
    #[derive(Debug)]
    struct OneEach;

    impl Files for OneEach {
        fn read_beside(&self, path: &str) -> Vec<Stored> {
            vec![Stored {
                path: "one.test".to_owned(),
                text: folder_of(path).to_owned(),
            }]
        }
    }

    fn texts(beside: &Beside) -> Vec<&str> {
        beside.all().map(|(_, open)| open.document.text()).collect()
    }

    #[test]
    fn a_folder_around_another_one_takes_nothing_from_it() {
        let mut beside = Beside::new(Box::new(OneEach));
        assert!(beside.refresh("file:///a/b/c/d.edd"));
        assert!(beside.refresh("file:///a/d.edd"));
        assert!(!beside.refresh("file:///a/e.edd"));
        assert!(!beside.refresh("untitled:e.edd"));
        assert_eq!(texts(&beside), ["/a/", "/a/b/c/"]);
        beside.forget("file:///a/d.edd");
        assert_eq!(texts(&beside), ["/a/b/c/"]);
    }
}
