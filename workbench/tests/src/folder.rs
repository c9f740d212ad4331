//! Folders for the files of runs.

use std::fs::{self, DirBuilder};
use std::io::{self, ErrorKind};
use std::os::unix::fs::DirBuilderExt;
use std::path::{Path, PathBuf};
use std::sync::atomic::{AtomicU32, Ordering};

/// Counts the folders of this process.
static MADE: AtomicU32 = AtomicU32::new(0);

/// A new folder that everybody may read. It is removed with all that is in it when it is dropped.
#[derive(Debug)]
pub struct TempFolder(PathBuf);

impl TempFolder {
    /// Makes a folder among the system's temporary files.
    ///
    /// ```
    /// let folder = edd_tests::folder::TempFolder::new()?;
    /// std::fs::write(folder.path().join("s"), "a source")?;
    /// # Ok::<(), std::io::Error>(())
    /// ```
    pub fn new() -> io::Result<TempFolder> {
        loop {
            let number = MADE.fetch_add(1, Ordering::Relaxed);
            let name = format!("edd_play_{}_{number}", std::process::id());
            let path = std::env::temp_dir().join(name);
            match DirBuilder::new().mode(0o755).create(&path) {
                // An earlier process of this number left it.
                Err(error) if error.kind() == ErrorKind::AlreadyExists => {}
                made => return made.map(|()| TempFolder(path)),
            }
        }
    }

    pub fn path(&self) -> &Path {
        &self.0
    }
}

impl Drop for TempFolder {
    fn drop(&mut self) {
        if let Err(error) = fs::remove_dir_all(&self.0) {
            eprintln!("{} is left: {error}", self.0.display());
        }
    }
}

/// Copies the files and folders of a folder whose names are wanted.
pub fn copy_files(from: &Path, to: &Path, is_wanted: &dyn Fn(&Path) -> bool) -> io::Result<()> {
    fs::create_dir_all(to)?;
    for entry in fs::read_dir(from)? {
        let path = entry?.path();
        let Some(name) = path.file_name().filter(|_| is_wanted(&path)) else {
            continue;
        };
        if path.is_dir() {
            copy_files(&path, &to.join(name), is_wanted)?;
        } else {
            fs::copy(&path, to.join(name))?;
        }
    }
    Ok(())
}
