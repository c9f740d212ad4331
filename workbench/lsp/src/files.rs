//! The files beside those that an editor has open.

use std::collections::VecDeque;
use std::fmt::Debug;
use std::fs::{self, File};
use std::io::Read;
use std::path::{Path, PathBuf};

/// The most files that are read beside one.
const MOST_FILES: usize = 64;

/// The most bytes of a file that is read.
const MOST_BYTES: u64 = 1_048_576;

/// The most folders that are looked into, how far down they are, and how many entries of all are looked
/// at.
const MOST_FOLDERS: usize = 64;
const MOST_DEPTH: usize = 2;
const MOST_ENTRIES: usize = 4096;

/// How the names of the files end that are read.
const ENDS: [&str; 3] = [".edd", ".test", ".script"];

/// A file, by its path from the folder of another one, with its text.
#[derive(Clone, Debug, PartialEq, Eq)]
pub struct Stored {
    /// As `tests/tank.test`.
    pub path: String,
    /// Its text.
    pub text: String,
}

/// Where the server reads files that no editor has open.
pub trait Files: Debug {
    /// The descriptions, tests and scripts in the folder of a file and in the folders below it.
    fn read_beside(&self, path: &str) -> Vec<Stored>;
}

/// No files.
#[derive(Clone, Copy, Debug, Default)]
pub struct NoFiles;

impl Files for NoFiles {
    fn read_beside(&self, _path: &str) -> Vec<Stored> {
        Vec::new()
    }
}

/// The files of the system: at most 64 regular ones, of at most 1 MiB each, in the folder of a file and
/// at most two folders down. Those that have the beginning of its name come first. Links are not
/// followed, and folders whose names begin with a dot are left out. Beside a file of the root folder
/// nothing is read, since the whole system is below it.
#[derive(Clone, Copy, Debug, Default)]
pub struct Disk;

impl Files for Disk {
    fn read_beside(&self, path: &str) -> Vec<Stored> {
        let path = Path::new(path);
        let folder = path.parent().filter(|folder| folder.parent().is_some());
        let Some(folder) = folder else {
            return Vec::new();
        };
        let stem = stem_of(path);
        let mut found = find_files(folder);
        found.sort_by_cached_key(|it| (stem_of(it) != stem, it.components().count(), it.clone()));
        found.truncate(MOST_FILES);
        let stored = found.into_iter().filter_map(|path| {
            Some(Stored {
                text: read_file(&path)?,
                path: path.strip_prefix(folder).ok()?.to_str()?.to_owned(),
            })
        });
        stored.collect()
    }
}

/// The beginning of the name of a file, up to its first dot.
fn stem_of(path: &Path) -> Option<&str> {
    path.file_name()?.to_str()?.split('.').next()
}

/// The files of a folder and of the folders in it that may be read.
fn find_files(folder: &Path) -> Vec<PathBuf> {
    let mut files = Vec::new();
    let mut folders = VecDeque::from([(folder.to_owned(), 0)]);
    let mut left = MOST_ENTRIES;
    for _ in 0..MOST_FOLDERS {
        let Some((folder, depth)) = folders.pop_front() else {
            break;
        };
        let mut inner = Vec::new();
        for (path, is_folder) in entries_of(&folder, &mut left) {
            if is_folder {
                inner.push(path);
            } else {
                files.push(path);
            }
        }
        if depth < MOST_DEPTH {
            inner.sort();
            let deeper = depth.saturating_add(1);
            folders.extend(inner.into_iter().map(|path| (path, deeper)));
        }
    }
    files
}

/// The files of a folder that may be read, and its folders, with whether each is a folder. Only so many
/// entries are left to be looked at.
fn entries_of(folder: &Path, left: &mut usize) -> Vec<(PathBuf, bool)> {
    let Ok(entries) = fs::read_dir(folder) else {
        return Vec::new();
    };
    let most = *left;
    let entries = entries.take(most).filter_map(|entry| {
        *left = left.saturating_sub(1);
        let entry = entry.ok()?;
        // That of a link is neither.
        let kind = entry.file_type().ok()?;
        let name = entry.file_name();
        let name = name.to_str()?;
        let is_folder = kind.is_dir() && !name.starts_with('.');
        let is_file = kind.is_file() && ENDS.iter().any(|end| name.ends_with(end));
        (is_folder || is_file).then(|| (entry.path(), is_folder))
    });
    entries.collect()
}

/// The text of a regular file that is not too long.
fn read_file(path: &Path) -> Option<String> {
    let file = File::open(path).ok()?;
    let about = file.metadata().ok()?;
    if !about.is_file() || about.len() > MOST_BYTES {
        return None;
    }
    let mut text = String::new();
    file.take(MOST_BYTES).read_to_string(&mut text).ok()?;
    Some(text)
}
