//! Why a suite can't be played.

use crate::pages::PageError;
use crate::rows::RowError;
use std::io;
use std::path::{Path, PathBuf};

/// Why a suite can't be played at all.
#[derive(Debug, thiserror::Error)]
pub enum PlayError {
    #[error("{}: {error}", path.display())]
    File { path: PathBuf, error: io::Error },
    #[error("the row `{row}`: {error}")]
    Row { row: String, error: RowError },
    #[error("the page `{page}`: {error}")]
    Page { page: String, error: PageError },
    #[error("the stored images: {0}")]
    Images(RowError),
    #[error("a folder for the runs: {0}")]
    Folder(io::Error),
    #[error("{0} runs a program: give its path by --program")]
    NoProgram(&'static str),
}

impl PlayError {
    /// What turns an error of a file into one of the suite.
    pub fn in_file(path: &Path) -> impl FnOnce(io::Error) -> PlayError {
        let path = path.to_owned();
        |error| PlayError::File { path, error }
    }
}
