//! `edd dump`: an image laid open.

use crate::command_line::Dump;
use crate::failure::Failure;
use core_std::alloc::Global;
use edd_files::{Files, read};
use edd_run::RunError;
use std::io::Write;

/// Prints the image. One that is refused is printed up to its fault.
pub(crate) fn run(
    args: &Dump,
    files: &mut impl Files,
    out: &mut impl Write,
) -> Result<(), Failure> {
    let bytes = read(Global, files, &args.image)?;
    let dump = edd_dump::Dump::new(&bytes);
    write!(out, "{dump}")?;
    match dump.fault() {
        Some(fault) => Err(RunError::from(fault).into()),
        None => Ok(()),
    }
}
