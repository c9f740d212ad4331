//! The command line as types.
//!
//! The doc comment of a command or an argument is its line of the help. Each struct has
//! `group(skip)`: the usage in an error would list all arguments of a group.

mod octets;
mod opening;
mod running;

use clap::{Args, Parser, Subcommand, ValueEnum};
pub(crate) use octets::Octets;
pub(crate) use opening::{Open, Terminal};
pub(crate) use running::{Play, Run, Try};

/// Compiles and shows device descriptions, and runs their methods
#[derive(Debug, Parser)]
#[command(
    name = "edd",
    version = "1.0, ordinary Rust over the proved core",
    arg_required_else_help = false
)]
pub(crate) struct CommandLine {
    #[command(subcommand)]
    pub(crate) command: Command,
}

#[derive(Debug, Subcommand)]
pub(crate) enum Command {
    /// Compiles a source and writes its image
    Compile(Compile),
    /// Compiles a source and shows its image
    View(View),
    /// Shows an image
    Show(Show),
    /// Runs a method of an image
    Play(Play),
    /// Compiles a source and runs a method
    Try(Try),
    /// Opens a source or an image: menus, edits and methods, by lines or by keys
    Open(Open),
    /// Runs the tests of files, and says which of them fail
    Test(Test),
    /// Says where sources are refused, what helps, and what is surely not meant
    Check(Check),
    /// Lays sources out anew: the same tokens and comments, other blanks and lines
    Fmt(Fmt),
    /// Says what differs between two sources or images, and what breaks older hosts
    Diff(Diff),
    /// Lays an image open, and says where one that is refused is wrong
    Dump(Dump),
    /// Shows the messages of a transaction as octets, and what a reply sets
    Octets(Octets),
    /// Says what a refusal means and how to mend it, and what a lint finds
    Explain(Explain),
    /// Answers an editor by the Language Server Protocol, on standard input and output
    Lsp,
}

#[derive(Debug, Args)]
#[group(skip)]
pub(crate) struct Compile {
    /// The source text
    pub(crate) source: String,
    /// The file that is written
    pub(crate) image: String,
    /// Prints no line, so that the image alone goes to the output, and no hint
    #[arg(short, long)]
    pub(crate) quiet: bool,
}

#[derive(Debug, Args)]
#[group(skip)]
pub(crate) struct View {
    /// The source text
    pub(crate) source: String,
    #[command(flatten)]
    pub(crate) device_state: DeviceState,
    #[command(flatten)]
    pub(crate) hints: Hints,
}

#[derive(Debug, Args)]
#[group(skip)]
pub(crate) struct Show {
    /// The image
    pub(crate) image: String,
    #[command(flatten)]
    pub(crate) device_state: DeviceState,
    #[command(flatten)]
    pub(crate) hints: Hints,
}

// Whether the standard error has what helps where something is refused.
#[derive(Debug, Args)]
#[group(skip)]
pub(crate) struct Hints {
    /// Prints no hint on the standard error
    #[arg(short, long)]
    pub(crate) quiet: bool,
}

// The values under which an image is shown, and the language of what is shown.
#[derive(Debug, Args)]
#[group(skip)]
pub(crate) struct DeviceState {
    /// The values of variables
    pub(crate) script: Option<String>,
    #[command(flatten)]
    pub(crate) language: Language,
}

#[derive(Debug, Args)]
#[group(skip)]
pub(crate) struct Language {
    /// The language of the texts
    #[arg(
        long = "lang",
        value_name = "CODE",
        default_value = "en",
        allow_hyphen_values = true
    )]
    pub(crate) code: String,
}

#[derive(Debug, Args)]
#[group(skip)]
pub(crate) struct Test {
    /// A file of tests
    #[arg(required = true, value_name = "FILE")]
    pub(crate) files: Vec<String>,
    /// Runs only the tests whose names contain this text
    #[arg(long, value_name = "TEXT")]
    pub(crate) filter: Option<String>,
    /// Writes what was seen in place of what was expected
    #[arg(long)]
    pub(crate) update: bool,
    /// Prints a document of JUnit in place of the lines
    #[arg(long, conflicts_with = "update")]
    pub(crate) junit: bool,
}

#[derive(Debug, Args)]
#[group(skip)]
pub(crate) struct Check {
    /// A source text
    #[arg(required = true, value_name = "SOURCE")]
    pub(crate) sources: Vec<String>,
    /// Says nothing of what this lint finds
    #[arg(long, value_name = "LINT")]
    pub(crate) allow: Vec<String>,
    /// Ends with status 1 where this lint finds something
    #[arg(long, value_name = "LINT")]
    pub(crate) deny: Vec<String>,
    /// Lines for a reader, excerpts, an object of JSON on each line, or a document of SARIF
    #[arg(long, value_name = "FORM", default_value = "text")]
    pub(crate) format: CheckForm,
    /// Colours in lines for a reader; auto is as never, but for ./edd on a terminal
    #[arg(long, value_name = "WHEN", default_value = "auto")]
    pub(crate) color: Color,
}

#[derive(Debug, Clone, Copy, PartialEq, Eq, ValueEnum)]
pub(crate) enum CheckForm {
    Text,
    Rich,
    Json,
    Sarif,
}

#[derive(Debug, Clone, Copy, PartialEq, Eq, ValueEnum)]
pub(crate) enum Color {
    Auto,
    Always,
    Never,
}

#[derive(Debug, Args)]
#[group(skip)]
pub(crate) struct Fmt {
    /// A source text
    #[arg(required = true, value_name = "SOURCE")]
    pub(crate) sources: Vec<String>,
    /// Writes nothing, and ends with status 1 where a layout differs
    #[arg(long)]
    pub(crate) check: bool,
    /// Shows the lines that differ, as a unified diff
    #[arg(long, requires = "check")]
    pub(crate) diff: bool,
}

#[derive(Debug, Args)]
#[group(skip)]
pub(crate) struct Diff {
    /// The older source text or image
    pub(crate) old: String,
    /// The newer source text or image
    pub(crate) new: String,
    /// Lines for a reader, or an object of JSON on each line
    #[arg(long, value_name = "FORM", default_value = "text")]
    pub(crate) format: DiffForm,
}

#[derive(Debug, Clone, Copy, ValueEnum)]
pub(crate) enum DiffForm {
    Text,
    Json,
}

#[derive(Debug, Args)]
#[group(skip)]
pub(crate) struct Dump {
    /// The image
    pub(crate) image: String,
}

#[derive(Debug, Args)]
#[group(skip)]
pub(crate) struct Explain {
    /// The number or the name of a refusal, or the name of a lint; without it all are listed
    #[arg(value_name = "NUMBER|NAME")]
    pub(crate) what: Option<String>,
    /// Lists the lints and what each of them finds
    #[arg(long)]
    pub(crate) lints: bool,
}
