//! What is played, and where its files are.

use crate::error::PlayError;
use std::fs;
use std::path::PathBuf;

/// The options that every suite reads.
#[derive(Debug, Clone, Default, clap::Args)]
pub struct Options {
    /// The folder of the tables
    #[arg(long, value_name = "FOLDER", default_value = "workbench/tests/tables")]
    pub tables: PathBuf,
    /// The folder with examples/ and docs/
    #[arg(long, value_name = "FOLDER", default_value = ".")]
    pub top: PathBuf,
    /// Play only rows, pages and parts with this word, once and as they are; several words all have to be there
    #[arg(long, value_name = "WORD")]
    pub only: Vec<String>,
    /// The program that the suites `program` and `pages` run; without it, `pages` runs the player as `edd`
    #[arg(long, value_name = "PATH")]
    pub program: Option<PathBuf>,
    /// Compare the program with this one, in place of the rows
    #[arg(long, value_name = "PATH", requires = "program")]
    pub beside: Option<PathBuf>,
    /// Write the stored images and docs/REFUSALS.md anew before they are compared; with --only nothing is written
    #[arg(long)]
    pub renew: bool,
}

impl Options {
    /// Whether a text has all the words of `--only`.
    ///
    /// ```
    /// use edd_tests::options::Options;
    /// let options = Options { only: vec!["view".into(), "BAD_SIZE".into()], ..Options::default() };
    /// assert!(options.selects("edd view s\nrefused 32 BAD_SIZE p"));
    /// assert!(!options.selects("edd view s\nrefused 10 SYNTAX line 1"));
    /// ```
    pub fn selects(&self, text: &str) -> bool {
        self.only.iter().all(|word| text.contains(word.as_str()))
    }

    /// Whether all of a suite is played, in all ways.
    pub fn plays_all(&self) -> bool {
        self.only.is_empty()
    }

    /// Reads a file of the folder of tables.
    pub fn read_table(&self, name: &str) -> Result<String, PlayError> {
        let path = self.tables.join(name);
        fs::read_to_string(&path).map_err(PlayError::in_file(&path))
    }
}
