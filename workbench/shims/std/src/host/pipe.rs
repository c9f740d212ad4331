//! A pipe.
use crate::io::{Read, Result};
use crate::real;

pub struct PipeReader(real::io::PipeReader);

pub struct PipeWriter(real::io::PipeWriter);

pub fn pipe<R>(_: &R) -> Result<(PipeReader, PipeWriter)> {
    let (reader, writer) = real::io::pipe()?;
    Ok((PipeReader(reader), PipeWriter(writer)))
}

impl Read for PipeReader {
    fn read(&mut self, room: &mut [u8]) -> Result<usize> {
        real::io::Read::read(&mut self.0, room)
    }
}

#[cfg(unix)]
impl real::os::fd::AsRawFd for PipeWriter {
    fn as_raw_fd(&self) -> i32 {
        self.0.as_raw_fd()
    }
}
