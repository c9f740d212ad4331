//! The program `edd` over given files: its command line, and what each command line asks for.
//!
//! `clap` parses the command line and prints helps and mistakes. The core decides what the commands
//! compile, refuse, run and save.

mod checking;
mod command_line;
mod commands;
mod failure;
mod hints;
mod output;
mod recorder;

use clap::Parser;
use command_line::CommandLine;
use core_std::rt::HostRuntime;
use core_std::string::String as CoreString;
pub use edd_files::{FileFault, Files};
use edd_program::program_files;
pub use failure::{COMMAND_LINE, DONE, FILE};
pub use output::StandardOutput;
use std::io::Write;

/// Runs a command line over the system's files, as [`run`] does.
pub fn run_on_system(words: Vec<String>, output: &mut (impl Write + Send)) -> u8 {
    run(words, &mut program_files(&HostRuntime), output)
}

/// Runs a command line over these files, prints to `output`, and returns the exit status. The first
/// of the words is the program's name.
pub fn run(words: Vec<String>, files: &mut impl Files, output: &mut (impl Write + Send)) -> u8 {
    let command_line = match CommandLine::try_parse_from(&words) {
        Ok(command_line) => command_line,
        Err(error) => return print_instead(&error, output),
    };
    // The core saves under a name only if these words contain it.
    let words: Vec<CoreString> = words.into_iter().map(CoreString::from_real).collect();
    commands::run(&command_line.command, &words, files, output)
}

/// Prints a mistake, a help or the version, and returns the exit status.
fn print_instead(error: &clap::Error, output: &mut impl Write) -> u8 {
    let mut text = error.to_string();
    // Some versions of clap do not end the last line.
    if !text.ends_with('\n') {
        text.push('\n');
    }
    match output.write_all(text.as_bytes()) {
        Ok(()) if error.use_stderr() => COMMAND_LINE,
        Ok(()) => DONE,
        Err(_) => FILE,
    }
}

#[cfg(test)]
mod tests {
    use super::*;
    use clap::CommandFactory;

    #[test]
    fn the_definition_of_the_command_line_is_consistent() {
        CommandLine::command().debug_assert();
    }

    #[test]
    fn a_mistake_and_a_help_have_whole_lines_and_their_status() {
        let words = |words: &[&str]| words.iter().copied().map(str::to_owned).collect();
        for (given, status) in [(["edd", "run"], COMMAND_LINE), (["edd", "--help"], DONE)] {
            let mut output = Vec::new();
            assert_eq!(run_on_system(words(&given), &mut output), status);
            assert!(output.ends_with(b"\n"));
        }
    }
}
