//! Plays the tables of tests.
#![forbid(unsafe_code)]

use clap::{Parser, ValueEnum};
use edd_tests::error::PlayError;
use edd_tests::options::Options;
use edd_tests::program::{AS_EDD, run_as_edd};
use edd_tests::score::Score;
use edd_tests::{calls, images, pages, rows};
use std::process::ExitCode;

/// Plays the tables of tests, and prints each row that fails with what was wanted and what was printed.
#[derive(Debug, Parser)]
#[command(name = "edd_play")]
struct CommandLine {
    #[command(flatten)]
    options: Options,
    #[arg(required = true, value_enum)]
    suites: Vec<Suite>,
}

#[derive(Debug, Clone, Copy, PartialEq, Eq, ValueEnum)]
enum Suite {
    /// Rows over files in memory, with failing calls and damaged files, and their images
    Rows,
    /// Rows by the program over real files
    Program,
    /// Commands and steps over real files, and the page of refusals
    Pages,
    /// Calls of the crates that read, compile and run a text, and of an editor's queries
    Calls,
    /// Calls on images
    Images,
}

impl Suite {
    fn play(self, options: &Options, score: &mut Score) -> Result<(), PlayError> {
        match self {
            Suite::Rows => score.suite("rows", |score| rows::play(options, score)),
            Suite::Program => score.suite("program", |score| rows::play_program(options, score)),
            Suite::Pages => score.suite("pages", |score| pages::play(options, score)),
            Suite::Calls => score.suite("calls", |score| {
                calls::play(&options.read_table("calls")?, &options.only, score);
                Ok(())
            }),
            Suite::Images => score.suite("images", |score| {
                images::play(&options.read_table("image_calls")?, &options.only, score);
                Ok(())
            }),
        }
    }
}

fn main() -> ExitCode {
    let mut words = std::env::args_os().skip(1).peekable();
    if words.next_if(|word| word == AS_EDD).is_some() {
        let words = words.map(|word| word.to_string_lossy().into_owned());
        return ExitCode::from(run_as_edd(words));
    }
    let CommandLine { options, suites } = CommandLine::parse();
    let mut score = Score::default();
    for suite in suites {
        if let Err(error) = suite.play(&options, &mut score) {
            score.row(format_args!("{suite:?}"), Some(error));
        }
    }
    println!("{score}");
    if score.is_passed() {
        ExitCode::SUCCESS
    } else {
        ExitCode::FAILURE
    }
}
