//! `play` and `try` with `--device`, which answers the requests of the method, or with `--trace`.

use crate::command_line;
use crate::failure::Failure;
use crate::hints::{self, Input, Inputs};
use crate::output::Lines;
use crate::recorder::Recorder;
use core_std::alloc::Global;
use edd_files::{Files, read, read_script};
use edd_run::{DeviceSource, MethodRun, RunError};
use edd_source::Source;
use edd_trace::Description;
use std::io::Write;

/// A run that is asked for.
#[derive(Clone, Copy)]
pub(crate) struct ExtendedRun<'a> {
    pub(crate) file: &'a str,
    /// Whether the file is a source, and no image.
    pub(crate) is_source: bool,
    pub(crate) device: Option<&'a str>,
    pub(crate) run: &'a command_line::Run,
    pub(crate) is_traced: bool,
    pub(crate) is_quiet: bool,
}

impl ExtendedRun<'_> {
    /// Runs the method, prints what it did, and returns the exit status.
    pub(crate) fn run(self, files: &mut impl Files, output: &mut (dyn Write + Send)) -> u8 {
        let mut recorder = Recorder::new(files, self.is_quiet);
        let mut refusal = None;
        let status = super::print(output, &mut recorder, |recorder, out| {
            let answer = self.read_and_run(recorder, out);
            if let Err(Failure::Run(error)) = &answer {
                refusal = Some(error.clone());
            }
            answer
        });
        if let Some(refusal) = refusal.filter(|_| !self.is_quiet) {
            // A hint for which there is no memory is left out.
            let _ = self.explain_refusal(&refusal, &mut recorder);
        }
        status
    }

    fn read_and_run<F: Files>(
        self,
        files: &mut Recorder<'_, F>,
        out: &mut Lines<'_>,
    ) -> Result<(), Failure> {
        let text = read(Global, files, self.file)?.into_real();
        let device_text = match self.device {
            Some(name) => Some(read(Global, files, name)?),
            None => None,
        };
        let script = read_script(Global, files, self.run.script.as_deref())?;
        let device = self.device.zip(device_text.as_deref());
        let device = device.map(|(name, text)| DeviceSource { name, text });
        let run = MethodRun {
            method: &self.run.method,
            script: &script,
            language: &self.run.language.code,
            steps: self.run.steps,
        };
        if !self.is_source {
            return Ok(play(&text, device, &run, out)?);
        }
        let description = Description::compile(&text)?;
        let ended = play(description.image(), device, &run, out);
        if self.is_traced && matches!(ended, Ok(()) | Err(RunError::NoAnswer(_))) {
            let source = Source::new(self.file, &text);
            super::trace::print(&description, &source, &run, device, out)?;
        }
        Ok(ended?)
    }

    fn explain_refusal<F: Files>(
        self,
        refusal: &RunError,
        files: &mut Recorder<'_, F>,
    ) -> Result<(), Failure> {
        let read = files.read.clone();
        let mut read = read.iter();
        let Some(bytes) = read.next() else {
            return Ok(());
        };
        let mut input = |name| {
            let bytes = read.next()?;
            Some(Input { name, bytes })
        };
        let inputs = Inputs {
            description: Input {
                name: self.file,
                bytes,
            },
            device: self.device.and_then(&mut input),
            script: self.run.script.as_deref().and_then(input),
        };
        match refusal {
            RunError::Image(_) => {
                hints::suggest_try(refusal, inputs.description, files);
                Ok(())
            }
            _ => hints::explain(refusal, &inputs, files),
        }
    }
}

/// Runs a method of an image, with a device where there is one, and prints what it did.
fn play(
    image: &[u8],
    device: Option<DeviceSource<'_>>,
    run: &MethodRun<'_>,
    out: &mut Lines<'_>,
) -> Result<(), RunError> {
    match device {
        Some(device) => edd_run::play_with_device(image, device, run, out),
        None => edd_run::play(image, run, out),
    }
}
