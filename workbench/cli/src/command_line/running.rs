//! The words of `play` and `try`, which run a method.

use super::{Hints, Language};
use clap::{Args, value_parser};

const MOST_STEPS: i64 = 1_000_000_000;

#[derive(Debug, Args)]
#[group(skip)]
pub(crate) struct Play {
    /// The image
    pub(crate) image: String,
    #[command(flatten)]
    pub(crate) run: Run,
    #[command(flatten)]
    pub(crate) hints: Hints,
}

#[derive(Debug, Args)]
#[group(skip)]
pub(crate) struct Try {
    /// The source text
    pub(crate) source: String,
    #[command(flatten)]
    pub(crate) run: Run,
    #[command(flatten)]
    pub(crate) hints: Hints,
    /// Tells where the method asks, changes variables and traps
    #[arg(long)]
    pub(crate) trace: bool,
}

// What both need.
#[derive(Debug, Args)]
#[group(skip)]
pub(crate) struct Run {
    /// The name of the method
    pub(crate) method: String,
    /// The values of variables, and the answers
    pub(crate) script: Option<String>,
    /// The source of a device, which answers the requests of the method
    #[arg(long)]
    pub(crate) device: Option<String>,
    /// The most instructions that are executed
    #[arg(
        long,
        value_name = "N",
        default_value = "1000000",
        value_parser = value_parser!(u32).range(..=MOST_STEPS)
    )]
    pub(crate) steps: u32,
    #[command(flatten)]
    pub(crate) language: Language,
}
