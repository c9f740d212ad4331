//! Hints: what helps where a command refuses something. They go to the standard error.

use crate::checking::{Diagnosis, LintLevels};
use crate::failure::Failure;
use core_std::alloc::Global;
use edd_files::Files;
use edd_helps::{Wrong, explain_script, nearest_command, nearest_method};
use edd_loader::{Image, LoadFault, load};
use edd_machine::ValuesFault;
use edd_port::PlayFault;
use edd_report::Refusal;
use edd_run::RunError;
use edd_script::ScriptFault;
use std::borrow::Cow;

/// A file that a command read.
#[derive(Clone, Copy, Debug)]
pub(crate) struct Input<'a> {
    pub(crate) name: &'a str,
    pub(crate) bytes: &'a [u8],
}

/// The files that a command read.
#[derive(Clone, Copy, Debug)]
pub(crate) struct Inputs<'a> {
    /// A source or an image.
    pub(crate) description: Input<'a>,
    pub(crate) device: Option<Input<'a>>,
    pub(crate) script: Option<Input<'a>>,
}

/// Prints hints for a refusal: where the source, the device or the script is wrong, and what helps.
pub(crate) fn explain(
    refusal: &RunError,
    inputs: &Inputs<'_>,
    files: &mut impl Files,
) -> Result<(), Failure> {
    match refusal {
        RunError::Source(_) => explain_source(Some(inputs.description), files),
        RunError::Device { .. } => explain_source(inputs.device, files),
        RunError::Script(ScriptFault::Line { line }) => {
            let line = u32::try_from(*line).unwrap_or(u32::MAX);
            let refusal = Refusal::on_line(300, "SCRIPT", line);
            explain_slip(Wrong::Line, refusal, inputs, files)
        }
        RunError::Values(ValuesFault::Range) => {
            explain_slip(Wrong::Range, Refusal::new(202, "RANGE", ""), inputs, files)
        }
        RunError::Play(PlayFault::OutOfRange) => {
            let refusal = Refusal::new(207, "OUT_OF_RANGE", "");
            explain_slip(Wrong::Answer, refusal, inputs, files)
        }
        RunError::NoMethod(name) => suggest(name, nearest_method, inputs.description, files),
        _ => Ok(()),
    }
}

/// Prints the command of the description that may be meant.
pub(crate) fn suggest_command(
    name: &str,
    description: Input<'_>,
    files: &mut impl Files,
) -> Result<(), Failure> {
    suggest(name, nearest_command, description, files)
}

/// Prints the item of the description that may be meant.
fn suggest(
    name: &str,
    nearest: for<'b> fn(&Image<'b>, &str) -> Option<&'b str>,
    description: Input<'_>,
    files: &mut impl Files,
) -> Result<(), Failure> {
    let bytes = image_of(description)?;
    let image = load(Global, &bytes).map_err(RunError::from)?;
    if let Some(near) = nearest(&image, name) {
        files.hint(&format!("help: `{near}` may be meant"));
    }
    Ok(())
}

/// The image of a source, or an image as it is.
fn image_of(description: Input<'_>) -> Result<Cow<'_, [u8]>, RunError> {
    if edd_run::is_image(description.bytes) {
        return Ok(Cow::Borrowed(description.bytes));
    }
    edd_run::compile(description.bytes).map(Cow::Owned)
}

fn explain_source(source: Option<Input<'_>>, files: &mut impl Files) -> Result<(), Failure> {
    let Some(Input { name, bytes }) = source else {
        return Ok(());
    };
    Diagnosis::of_source(name, bytes, &LintLevels::usual(), files)?.hint(files);
    Ok(())
}

/// Prints which word of the script is wrong.
fn explain_slip(
    wrong: Wrong,
    refusal: Refusal,
    inputs: &Inputs<'_>,
    files: &mut impl Files,
) -> Result<(), Failure> {
    let Some(script) = inputs.script else {
        return Ok(());
    };
    let bytes = image_of(inputs.description)?;
    let image = load(Global, &bytes).map_err(RunError::from)?;
    if let Some(finding) = explain_script(&image, script.bytes, wrong) {
        Diagnosis::of_finding(script.name, script.bytes, refusal, finding).hint(files);
    }
    Ok(())
}

/// Prints the command that runs a source, where one was played as an image.
pub(crate) fn suggest_try(refusal: &RunError, input: Input<'_>, files: &mut impl Files) {
    if matches!(refusal, RunError::Image(LoadFault::Magic)) && is_text(input.bytes) {
        let name = input.name;
        files.hint(&format!(
            "help: this is a text and no image: `edd try {name}` runs a source"
        ));
    }
}

/// Whether the bytes are a text, as no image is.
fn is_text(bytes: &[u8]) -> bool {
    let is_of_text = |sign: char| !sign.is_ascii_control() || sign.is_ascii_whitespace();
    std::str::from_utf8(bytes).is_ok_and(|text| text.chars().all(is_of_text))
}
