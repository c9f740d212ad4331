//! `compile`, `view`, `show`, `play` and `try`. The core does them: their lines, their statuses and what
//! they save are its own. This module adds hints where they refuse something.

use crate::command_line::{self, Compile, DeviceState, Hints, Play, Show, Try, View};
use crate::failure::{DONE, FILE, Failure, REFUSED};
use crate::hints::{self, Input, Inputs};
use crate::output::Lines;
use crate::recorder::Recorder;
use core_std::alloc::Global;
use core_std::io as core_io;
use edd_files::Files;
use edd_program::{Request, Run, Showing};
use edd_run::{MethodRun, RunError};
use std::io::Write;

/// The name of a script that is not given.
const NO_SCRIPT: &str = "";

/// A command of the core.
#[derive(Clone, Copy)]
pub(crate) struct CoreCommand<'a> {
    request: Request<'a>,
    /// The script that is given. Without one the core gets an empty one.
    script: Option<&'a str>,
    /// Whether no hint is printed.
    is_quiet: bool,
}

impl<'a> CoreCommand<'a> {
    pub(crate) fn view(args: &'a View) -> CoreCommand<'a> {
        let showing = to_showing(&args.source, &args.device_state);
        CoreCommand::new(Request::View(showing), showing.script, &args.hints)
    }

    pub(crate) fn show(args: &'a Show) -> CoreCommand<'a> {
        let showing = to_showing(&args.image, &args.device_state);
        CoreCommand::new(Request::Show(showing), showing.script, &args.hints)
    }

    pub(crate) fn play(args: &'a Play) -> CoreCommand<'a> {
        let (image, run) = (&args.image, to_run(&args.run));
        CoreCommand::new(
            Request::Play { image, run },
            args.run.script.as_deref(),
            &args.hints,
        )
    }

    pub(crate) fn try_source(args: &'a Try) -> CoreCommand<'a> {
        let (source, run) = (&args.source, to_run(&args.run));
        CoreCommand::new(
            Request::Try { source, run },
            args.run.script.as_deref(),
            &args.hints,
        )
    }

    fn new(request: Request<'a>, script: Option<&'a str>, hints: &Hints) -> CoreCommand<'a> {
        CoreCommand {
            request,
            script,
            is_quiet: hints.quiet,
        }
    }

    /// Runs the command, and returns its exit status.
    pub(crate) fn run(self, files: &mut impl Files, output: &mut (dyn Write + Send)) -> u8 {
        let mut recorder = self.recorder(files);
        let mut lines = Lines::new(output);
        let ended = edd_program::run(Global, self.request, &mut recorder, &mut lines);
        let status = lines.end(ended);
        self.explain_status(status, &mut recorder);
        status
    }

    fn recorder<'f, F: Files>(self, files: &'f mut F) -> Recorder<'f, F> {
        let is_run = matches!(self.request, Request::Play { .. } | Request::Try { .. });
        let recorder = Recorder::new(files, self.is_quiet);
        if is_run && self.script.is_none() {
            recorder.with_empty_script()
        } else {
            recorder
        }
    }

    /// Prints hints on why the command ended with this status. One for which there is no memory is left
    /// out.
    fn explain_status<F: Files>(self, status: u8, recorder: &mut Recorder<'_, F>) {
        match status {
            FILE => recorder.explain_fault(),
            REFUSED if !self.is_quiet => {
                let _ = self.explain_refusal(recorder);
            }
            _ => {}
        }
    }

    /// Asks the core again, for the refusal as a value.
    fn explain_refusal<F: Files>(self, recorder: &mut Recorder<'_, F>) -> Result<(), Failure> {
        let read = recorder.read.clone();
        let Some((description, rest)) = read.split_first() else {
            return Ok(());
        };
        let script = rest.first().map_or(&b""[..], |script| script);
        let (name, ended) = run_again(self.request, description, script);
        let Err(refusal) = ended else { return Ok(()) };
        let inputs = Inputs {
            description: Input {
                name,
                bytes: description,
            },
            device: None,
            script: self.script.map(|name| Input {
                name,
                bytes: script,
            }),
        };
        // The core itself prints the hint for a text that is shown as an image.
        if matches!(self.request, Request::Play { .. }) {
            hints::suggest_try(&refusal, inputs.description, recorder);
        }
        hints::explain(&refusal, &inputs, recorder)
    }
}

/// Runs `compile`. Where it is quiet, no line is printed of an image that is saved.
pub(crate) fn compile(
    args: &Compile,
    files: &mut impl Files,
    output: &mut (dyn Write + Send),
) -> u8 {
    let command = CoreCommand {
        request: Request::Compile {
            source: &args.source,
            image: &args.image,
        },
        script: None,
        is_quiet: args.quiet,
    };
    if !args.quiet {
        return command.run(files, output);
    }
    let mut lines = Vec::new();
    match command.run(files, &mut lines) {
        DONE => DONE,
        status => output.write_all(&lines).map_or(FILE, |()| status),
    }
}

fn to_showing<'a>(file: &'a str, state: &'a DeviceState) -> Showing<'a> {
    Showing {
        file,
        script: state.script.as_deref(),
        language: &state.language.code,
    }
}

fn to_run(args: &command_line::Run) -> Run<'_> {
    Run {
        method: &args.method,
        script: args.script.as_deref().unwrap_or(NO_SCRIPT),
        language: &args.language.code,
        steps: args.steps.into(),
    }
}

/// Does what the core did, and returns the name of the description.
fn run_again<'a>(
    request: Request<'a>,
    description: &[u8],
    script: &[u8],
) -> (&'a str, Result<(), RunError>) {
    let mut nowhere = Nowhere;
    let compiled = || edd_run::compile(description);
    match request {
        Request::Compile { source, .. } => (source, compiled().map(drop)),
        Request::View(Showing { file, language, .. }) => {
            let show = |image: Vec<u8>| edd_run::show(&image, script, language, &mut nowhere);
            (file, compiled().and_then(show))
        }
        Request::Show(Showing { file, language, .. }) => {
            let shown = edd_run::show(description, script, language, &mut nowhere);
            (file, shown)
        }
        Request::Play { image, run } => {
            let played = edd_run::play(description, &under(&run, script), &mut nowhere);
            (image, played)
        }
        Request::Try { source, run } => {
            let play = |image: Vec<u8>| edd_run::play(&image, &under(&run, script), &mut nowhere);
            (source, compiled().and_then(play))
        }
    }
}

/// A run under the bytes of its script.
fn under<'a>(run: &Run<'a>, script: &'a [u8]) -> MethodRun<'a> {
    MethodRun {
        method: run.method,
        script,
        language: run.language,
        steps: u32::try_from(run.steps).unwrap_or(u32::MAX),
    }
}

/// An output that is not looked at.
struct Nowhere;

impl core_io::Write for Nowhere {
    fn write(&mut self, bytes: &[u8]) -> core_io::Result<usize> {
        Ok(bytes.len())
    }

    fn flush(&mut self) -> core_io::Result<()> {
        Ok(())
    }
}
