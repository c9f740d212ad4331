//! The words of `octets`.

use super::{Hints, Language};
use clap::Args;
use edd_transactions::Octets as Written;

#[derive(Debug, Args)]
#[group(skip)]
pub(crate) struct Octets {
    /// The source text, or the image
    #[arg(value_name = "SOURCE|IMAGE")]
    pub(crate) file: String,
    /// The name of a command, or its NUMBER
    pub(crate) command: String,
    /// The number of a transaction; without it the command's first one
    pub(crate) transaction: Option<String>,
    /// The values of variables, which else have their defaults
    pub(crate) script: Option<String>,
    /// The octets of a reply, whose values are printed in place of both messages
    #[arg(long, value_name = "HEX")]
    pub(crate) reply: Option<Written>,
    #[command(flatten)]
    pub(crate) language: Language,
    #[command(flatten)]
    pub(crate) hints: Hints,
}
