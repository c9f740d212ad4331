//! The output as commands write to it.

use crate::failure::FILE;
use core_std::io as core_io;
use core_std::rt::HostRuntime;
use edd_program::Ended;
use std::io::{self, BufWriter, Write};

/// How many bytes of lines are held back. What most commands print is one write then, so that a
/// reader that closes early, as `head`, doesn't change how the program ends.
const HELD_BACK: usize = 65_536;

/// The standard output. Nothing is held back, and a closed one is an error, unlike that of `std`.
#[derive(Clone, Copy, Debug, Default)]
pub struct StandardOutput;

impl Write for StandardOutput {
    fn write(&mut self, bytes: &[u8]) -> io::Result<usize> {
        core_io::Write::write(&mut core_io::writer(&HostRuntime), bytes)
    }

    fn flush(&mut self) -> io::Result<()> {
        Ok(())
    }
}

/// An output whose lines are held back. The core writes to it too.
pub(crate) struct Lines<'o>(BufWriter<&'o mut (dyn Write + Send)>);

impl<'o> Lines<'o> {
    pub(crate) fn new(output: &'o mut (dyn Write + Send)) -> Lines<'o> {
        Lines(BufWriter::with_capacity(HELD_BACK, output))
    }

    /// Writes what is held back. After a write that fails none is tried.
    pub(crate) fn finish(mut self) -> io::Result<()> {
        let finished = self.0.flush();
        self.discard();
        finished
    }

    /// Writes what is held back of a request that ended so, unless a write failed before, and returns
    /// the exit status.
    pub(crate) fn end(self, ended: Ended) -> u8 {
        if !ended.is_written {
            self.discard();
            return ended.status;
        }
        self.finish().map_or(FILE, |()| ended.status)
    }

    /// Drops what is held back. A `BufWriter` that is dropped as it is tries once more to write it.
    pub(crate) fn discard(self) {
        let (_, _) = self.0.into_parts();
    }
}

impl Write for Lines<'_> {
    fn write(&mut self, bytes: &[u8]) -> io::Result<usize> {
        self.0.write(bytes)
    }

    fn flush(&mut self) -> io::Result<()> {
        self.0.flush()
    }
}

impl core_io::Write for Lines<'_> {
    fn write(&mut self, bytes: &[u8]) -> core_io::Result<usize> {
        self.0.write(bytes)
    }

    fn flush(&mut self) -> core_io::Result<()> {
        self.0.flush()
    }
}
