//! `edd diff`: what differs between two descriptions.

use crate::command_line::{Diff, DiffForm};
use crate::failure::{Failure, REFUSED};
use core_std::alloc::Global;
use edd_diff::Differences;
use edd_files::{Files, read};
use edd_loader::{Image, LoadFault, load};
use edd_run::RunError;
use std::io::Write;

/// Prints what differs between two sources or images.
pub(crate) fn run(
    args: &Diff,
    files: &mut impl Files,
    out: &mut impl Write,
) -> Result<(), Failure> {
    let old = read(Global, files, &args.old)?.into_real();
    let new = read(Global, files, &args.new)?.into_real();
    let old = to_image_bytes(&args.old, old)?;
    let new = to_image_bytes(&args.new, new)?;
    let old = load_named(&args.old, &old)?;
    let new = load_named(&args.new, &new)?;
    let differences = Differences::between(&old, &new);
    match args.format {
        DiffForm::Text => write!(out, "{differences}")?,
        // Writing JSON into a text fails for want of memory at most.
        DiffForm::Json => {
            let lines = differences.to_json_lines().map_err(|_| Failure::Memory)?;
            out.write_all(lines.as_bytes())?;
        }
    }
    if differences.all().is_empty() {
        Ok(())
    } else {
        Err(Failure::Printed(REFUSED))
    }
}

/// The image in the bytes of a file: of a source what it is compiled to.
fn to_image_bytes(name: &str, bytes: Vec<u8>) -> Result<Vec<u8>, Failure> {
    if edd_run::is_image(&bytes) {
        return Ok(bytes);
    }
    edd_run::compile(&bytes).map_err(|error| match error {
        RunError::Source(refusal) => Failure::SourceOf {
            name: name.to_owned(),
            refusal,
        },
        error => error.into(),
    })
}

fn load_named<'b>(name: &str, bytes: &'b [u8]) -> Result<Image<'b>, Failure> {
    load(Global, bytes).map_err(|fault| match fault {
        LoadFault::Memory => Failure::Memory,
        fault => Failure::ImageOf {
            name: name.to_owned(),
            fault,
        },
    })
}
