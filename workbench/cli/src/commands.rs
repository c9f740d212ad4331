//! The commands. Each is a function that prints lines, and whose error says why it ends early.

mod check;
mod diff;
mod dump;
mod explain;
mod extended_run;
mod fmt;
mod lsp;
mod octets;
mod open;
mod proved;
mod test;
mod trace;

use crate::command_line::{Command, Play, Try};
use crate::failure::{DONE, FILE, Failure, reason};
use crate::output::Lines;
use core_std::string::String as CoreString;
use edd_files::Files;
use extended_run::ExtendedRun;
use proved::CoreCommand;
use std::io::Write;

/// Runs a command, and returns its exit status. The words are those of the command line.
pub(crate) fn run(
    command: &Command,
    words: &[CoreString],
    files: &mut impl Files,
    output: &mut (impl Write + Send),
) -> u8 {
    match command {
        Command::Compile(args) => proved::compile(args, files, output),
        Command::View(args) => CoreCommand::view(args).run(files, output),
        Command::Show(args) => CoreCommand::show(args).run(files, output),
        Command::Play(args) => run_play(args, files, output),
        Command::Try(args) => run_try(args, files, output),
        Command::Open(args) => print(output, files, |files, out| {
            open::run(args, words, files, out)
        }),
        Command::Test(args) => print(output, files, |files, out| {
            test::run(args, words, files, out)
        }),
        Command::Check(args) => print(output, files, |files, out| check::run(args, files, out)),
        Command::Fmt(args) => print(output, files, |files, out| fmt::run(args, files, out)),
        Command::Diff(args) => print(output, files, |files, out| diff::run(args, files, out)),
        Command::Dump(args) => print(output, files, |files, out| dump::run(args, files, out)),
        Command::Octets(args) => octets::run(args, files, output),
        Command::Explain(args) => print(output, files, |_, out| explain::run(args, out)),
        Command::Lsp => print(output, files, |files, out| lsp::run(files, out)),
    }
}

fn run_play(args: &Play, files: &mut impl Files, output: &mut (impl Write + Send)) -> u8 {
    if args.run.device.is_none() {
        return CoreCommand::play(args).run(files, output);
    }
    let extended = ExtendedRun {
        file: &args.image,
        is_source: false,
        device: args.run.device.as_deref(),
        run: &args.run,
        is_traced: false,
        is_quiet: args.hints.quiet,
    };
    extended.run(files, output)
}

fn run_try(args: &Try, files: &mut impl Files, output: &mut (impl Write + Send)) -> u8 {
    if args.run.device.is_none() && !args.trace {
        return CoreCommand::try_source(args).run(files, output);
    }
    let extended = ExtendedRun {
        file: &args.source,
        is_source: true,
        device: args.run.device.as_deref(),
        run: &args.run,
        is_traced: args.trace,
        is_quiet: args.hints.quiet,
    };
    extended.run(files, output)
}

/// Prints the lines of a command and why it ended early, and returns the exit status. After a write
/// that failed none is tried.
fn print<F: Files>(
    output: &mut (dyn Write + Send),
    files: &mut F,
    command: impl FnOnce(&mut F, &mut Lines<'_>) -> Result<(), Failure>,
) -> u8 {
    let mut lines = Lines::new(output);
    let ended = match command(files, &mut lines) {
        Err(Failure::Output(error)) => {
            lines.discard();
            Err(Failure::Output(error))
        }
        ended => lines.finish().map_err(Failure::Output).and(ended),
    };
    let Err(failure) = ended else { return DONE };
    let printed = failure.line().map(|line| output.write_all(line.as_bytes()));
    if matches!(printed, Some(Err(_))) {
        return FILE;
    }
    if let Failure::File { fault, .. } = failure {
        files.hint(reason(fault));
    }
    failure.status()
}
