//! The handle of the system, and what can be done by it.
use crate::alloc::Alloc;
use crate::fs::{File, FromReal, OpenFile};
use crate::io::{Read, Result, Write};
use crate::real;
use core::fmt;

/// Stands for the system.
#[derive(Clone, Copy, Debug)]
pub struct HostRuntime;

impl Alloc for HostRuntime {}

impl HostRuntime {
    pub fn stdin(&self) -> Stdin {
        Stdin
    }
}

/// A program that may end at once, as an assertion ends it.
pub trait Abort {}

impl Abort for HostRuntime {}

/// Prints to the standard output.
pub trait Print {
    fn print(&self, arguments: fmt::Arguments<'_>) -> Result<()> {
        with_output(|out| real::io::Write::write_fmt(out, arguments))
    }

    fn println(&self, arguments: fmt::Arguments<'_>) -> Result<()> {
        self.print(format_args!("{arguments}\n"))
    }
}

impl Print for HostRuntime {}

/// Prints to the standard error.
pub trait Eprint {
    fn eprintln(&self, arguments: fmt::Arguments<'_>) -> Result<()> {
        real::io::Write::write_fmt(&mut real::io::stderr(), format_args!("{arguments}\n"))
    }
}

impl Eprint for HostRuntime {}

/// Reads the standard input.
pub trait Input {
    type Reader: Read;
    fn reader(&self) -> Self::Reader;
}

impl Input for HostRuntime {
    type Reader = Stdin;
    fn reader(&self) -> Stdin {
        Stdin
    }
}

/// Opens files.
pub trait Files {
    type File: Read + Write + OpenFile + FromReal;
}

impl Files for HostRuntime {
    type File = File;
}

/// The standard input.
pub struct Stdin;

impl Read for Stdin {
    fn read(&mut self, room: &mut [u8]) -> Result<usize> {
        read_input(room)
    }
}

// Rust's own input takes memory at its first use and reads ahead, so its descriptor is read.
#[cfg(unix)]
#[allow(unsafe_code)]
fn read_input(room: &mut [u8]) -> Result<usize> {
    use real::os::fd::FromRawFd;
    // SAFETY: the descriptor stays open, since the file is not dropped.
    let mut input = core::mem::ManuallyDrop::new(unsafe { real::fs::File::from_raw_fd(0) });
    real::io::Read::read(&mut *input, room)
}

#[cfg(not(unix))]
fn read_input(room: &mut [u8]) -> Result<usize> {
    real::io::Read::read(&mut real::io::stdin(), room)
}

/// The standard output. Nothing is held back.
pub struct Stdout;

/// The standard output as a writer.
pub fn writer<R: Print>(_: &R) -> Stdout {
    Stdout
}

// Rust's own output takes memory at its first use and holds lines back, so its descriptor is written.
#[cfg(unix)]
#[allow(unsafe_code)]
fn with_output<T>(action: impl FnOnce(&mut real::fs::File) -> T) -> T {
    use real::os::fd::FromRawFd;
    // SAFETY: the descriptor stays open, since the file is not dropped.
    action(&mut core::mem::ManuallyDrop::new(unsafe {
        real::fs::File::from_raw_fd(1)
    }))
}

#[cfg(not(unix))]
fn with_output<T>(action: impl FnOnce(&mut real::io::StdoutLock<'_>) -> T) -> T {
    action(&mut real::io::stdout().lock())
}

impl Write for Stdout {
    fn write(&mut self, bytes: &[u8]) -> Result<usize> {
        with_output(|out| real::io::Write::write(out, bytes))
    }

    fn flush(&mut self) -> Result<()> {
        with_output(|out| real::io::Write::flush(out))
    }
}
