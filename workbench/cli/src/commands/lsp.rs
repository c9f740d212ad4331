//! `edd lsp`: answers an editor.

use crate::failure::{Failure, REFUSED};
use core_std::io::Read as CoreRead;
use edd_files::{FileFault, Files, INPUT, of_file};
use edd_lsp::{Disk, Ending, ServeError, serve};
use std::io::{self, Read, Write};

/// The input as the rest of Rust reads it.
struct Input<R>(R);

impl<R: CoreRead> Read for Input<R> {
    fn read(&mut self, bytes: &mut [u8]) -> io::Result<usize> {
        self.0.read(bytes)
    }
}

/// Answers what comes on the standard input, up to `exit`. The status is 0 where the editor has asked
/// for the shutdown before.
pub(crate) fn run(files: &mut impl Files, out: &mut (impl Write + Send)) -> Result<(), Failure> {
    let input = files.open(INPUT).map_err(|fault| of_file(INPUT, fault))?;
    match serve(&mut Input(input), out, Disk) {
        Ok(Ending::Clean) => Ok(()),
        Ok(Ending::Unclean) => Err(Failure::Printed(REFUSED)),
        Err(ServeError::Output(error)) => Err(Failure::Output(error)),
        Err(ServeError::Input(_)) => Err(Failure::File {
            name: INPUT.to_owned(),
            fault: FileFault::Failed,
        }),
    }
}
