//! The words of `open`, which reads lines or the keys of a terminal.

use super::Language;
use clap::{Args, value_parser};

/// The most rows and columns of a terminal.
const MOST: i64 = 10_000;

#[derive(Debug, Args)]
#[group(skip)]
pub(crate) struct Open {
    /// The source text, or the image
    pub(crate) file: String,
    /// The values of variables
    pub(crate) script: Option<String>,
    /// The source of a device, which answers the requests of the method
    #[arg(long)]
    pub(crate) device: Option<String>,
    /// The file that is written with what was set and answered, as a script
    #[arg(long, value_name = "FILE")]
    pub(crate) record: Option<String>,
    #[command(flatten)]
    pub(crate) language: Language,
    #[command(flatten)]
    pub(crate) terminal: Terminal,
}

#[derive(Debug, Args)]
#[group(skip)]
pub(crate) struct Terminal {
    /// Reads lines, also on a terminal
    #[arg(long)]
    pub(crate) lines: bool,
    /// Reads the keys of a terminal in raw mode, as ./edd gives them, and draws screens
    #[arg(long)]
    pub(crate) keys: bool,
    /// The rows of the terminal, for --keys
    #[arg(
        long,
        value_name = "N",
        default_value = "24",
        value_parser = value_parser!(u32).range(..=MOST)
    )]
    pub(crate) rows: u32,
    /// The columns of the terminal, for --keys
    #[arg(
        long,
        value_name = "N",
        default_value = "80",
        value_parser = value_parser!(u32).range(..=MOST)
    )]
    pub(crate) columns: u32,
    /// A read that gives nothing says that a second has passed, for --keys
    #[arg(long)]
    pub(crate) seconds: bool,
}
