//! `edd check`: where sources are refused, what helps, and what is clearly a mistake.

use crate::checking::{Diagnosis, Form, LintLevels, Style, print_sarif};
use crate::command_line::{Check, CheckForm, Color};
use crate::failure::{FILE, Failure, REFUSED, reason};
use core_std::alloc::Global;
use edd_files::{FileFault, Files, read_bytes};
use std::io::Write;

/// A source that is named, with its text or why it can't be read.
type Named<'a> = (&'a str, Result<Vec<u8>, FileFault>);

/// Prints what is said of the sources, one after the other. All are read first; one that can't be read
/// is reported in its place.
pub(crate) fn run(
    args: &Check,
    files: &mut impl Files,
    out: &mut impl Write,
) -> Result<(), Failure> {
    let levels = LintLevels::new(&args.allow, &args.deny)?;
    let sources = read_sources(&args.sources, files)?;
    let mut diagnoses = Vec::new();
    let mut status = None;
    for (name, text) in &sources {
        let found = match text {
            Ok(text) => Ok(Diagnosis::of_source(name, text, &levels, files)?),
            Err(fault) => Err(*fault),
        };
        // The greatest status counts: a file that can't be read is worse than one that is refused.
        let is_refused = found.as_ref().is_ok_and(Diagnosis::fails);
        status = status.max(is_refused.then_some(REFUSED));
        status = status.max(found.is_err().then_some(FILE));
        match (found, form_of(args)) {
            (Ok(diagnosis), Some(form)) => diagnosis.print(form, out)?,
            (Ok(diagnosis), None) => diagnoses.push(diagnosis),
            (Err(fault), Some(Form::Text(_) | Form::Rich(_))) => {
                writeln!(out, "file {name}\n{}", reason(fault))?;
            }
            // The output has nothing but JSON.
            (Err(fault), _) => {
                files.hint(&format!("file {name}"));
                files.hint(reason(fault));
            }
        }
    }
    if args.format == CheckForm::Sarif {
        print_sarif(&diagnoses, out)?;
    }
    status.map_or(Ok(()), |status| Err(Failure::Printed(status)))
}

fn read_sources<'a>(
    names: &'a [String],
    files: &mut impl Files,
) -> Result<Vec<Named<'a>>, Failure> {
    let mut sources = Vec::new();
    for name in names {
        let text = match read_bytes(Global, files, name) {
            Err(FileFault::Memory) => return Err(Failure::Memory),
            text => text.map(core_std::vec::Vec::into_real),
        };
        sources.push((name.as_str(), text));
    }
    Ok(sources)
}

/// The form in which each source is printed by itself. A document has all of them.
fn form_of(args: &Check) -> Option<Form> {
    let style = match args.color {
        Color::Always => Style::Coloured,
        Color::Auto | Color::Never => Style::Plain,
    };
    match args.format {
        CheckForm::Text => Some(Form::Text(style)),
        CheckForm::Rich => Some(Form::Rich(style)),
        CheckForm::Json => Some(Form::Json),
        CheckForm::Sarif => None,
    }
}
