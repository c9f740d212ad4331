//! Readers and writers over lists that may not grow.
use crate::alloc::{AllocError, AllocFailed, Global};
#[cfg(feature = "host")]
pub use crate::host::{pipe::pipe, rt::writer};
#[cfg(feature = "host")]
pub use crate::real::io::{Error, ErrorKind, Result};
use crate::string::String;
use crate::vec::Vec;

/// What is said where there is no system.
#[cfg(not(feature = "host"))]
mod bare {
    #[derive(Clone, Copy, Debug, PartialEq, Eq)]
    pub enum ErrorKind {
        OutOfMemory,
        InvalidInput,
        NotFound,
        AlreadyExists,
        WriteZero,
        Interrupted,
        Other,
    }
    #[derive(Debug)]
    pub struct Error(ErrorKind);
    impl Error {
        pub fn kind(&self) -> ErrorKind {
            self.0
        }
    }
    impl From<ErrorKind> for Error {
        fn from(k: ErrorKind) -> Error {
            Error(k)
        }
    }
    pub type Result<T> = core::result::Result<T, Error>;
}
#[cfg(not(feature = "host"))]
pub use bare::*;
impl From<AllocError> for Error {
    fn from(_: AllocError) -> Error {
        Error::from(ErrorKind::OutOfMemory)
    }
}
impl<T> From<AllocFailed<T>> for Error {
    fn from(_: AllocFailed<T>) -> Error {
        Error::from(ErrorKind::OutOfMemory)
    }
}

pub trait Read {
    fn read(&mut self, buf: &mut [u8]) -> Result<usize>;
    fn read_to_end(&mut self, bytes: &mut Vec<u8>) -> Result<usize> {
        let before = bytes.len();
        let mut piece = [0; 4096];
        loop {
            match self.read(&mut piece) {
                Ok(0) => return Ok(bytes.len() - before),
                Ok(n) => bytes.extend_from_slice(&piece[..n])?,
                Err(e) if e.kind() == ErrorKind::Interrupted => {}
                Err(e) => return Err(e),
            }
        }
    }
    fn read_to_string(&mut self, text: &mut String) -> Result<usize> {
        let mut bytes = Vec::new(Global);
        let n = self.read_to_end(&mut bytes)?;
        text.push_str(
            core::str::from_utf8(&bytes).map_err(|_| Error::from(ErrorKind::InvalidInput))?,
        )?;
        Ok(n)
    }
}
pub trait Write {
    fn write(&mut self, buf: &[u8]) -> Result<usize>;
    fn flush(&mut self) -> Result<()>;
    fn write_all(&mut self, mut buf: &[u8]) -> Result<()> {
        while !buf.is_empty() {
            match self.write(buf) {
                Ok(0) => return Err(Error::from(ErrorKind::WriteZero)),
                Ok(n) => buf = &buf[n..],
                Err(e) if e.kind() == ErrorKind::Interrupted => {}
                Err(e) => return Err(e),
            }
        }
        Ok(())
    }
}
impl<W: Write + ?Sized> Write for &mut W {
    fn write(&mut self, buf: &[u8]) -> Result<usize> {
        (**self).write(buf)
    }
    fn flush(&mut self) -> Result<()> {
        (**self).flush()
    }
    fn write_all(&mut self, buf: &[u8]) -> Result<()> {
        (**self).write_all(buf)
    }
}
impl Write for Vec<u8> {
    fn write(&mut self, buf: &[u8]) -> Result<usize> {
        self.extend_from_slice(buf)?;
        Ok(buf.len())
    }
    fn flush(&mut self) -> Result<()> {
        Ok(())
    }
}
impl Read for &[u8] {
    fn read(&mut self, buf: &mut [u8]) -> Result<usize> {
        let n = buf.len().min(self.len());
        let (now, later) = self.split_at(n);
        buf[..n].copy_from_slice(now);
        *self = later;
        Ok(n)
    }
}
/// Holds back what is written, up to its capacity.
pub struct BufWriter<W: Write> {
    held: Vec<u8>,
    room: usize,
    out: W,
}
impl<W: Write> BufWriter<W> {
    pub fn with_capacity(g: Global, room: usize, out: W) -> core::result::Result<Self, AllocError> {
        Ok(BufWriter {
            held: Vec::with_capacity(g, room)?,
            room,
            out,
        })
    }
    fn pass_on(&mut self) -> Result<()> {
        let done = self.out.write_all(&self.held);
        self.held.clear();
        done
    }
    pub fn into_parts(self) -> (W, Vec<u8>) {
        (self.out, self.held)
    }
}
impl<W: Write> Write for BufWriter<W> {
    fn write(&mut self, buf: &[u8]) -> Result<usize> {
        self.write_all(buf)?;
        Ok(buf.len())
    }
    fn write_all(&mut self, buf: &[u8]) -> Result<()> {
        if self.held.len() + buf.len() > self.room {
            self.pass_on()?;
        }
        if buf.len() >= self.room {
            return self.out.write_all(buf);
        }
        self.held.extend_from_slice(buf)?;
        Ok(())
    }
    fn flush(&mut self) -> Result<()> {
        self.pass_on()?;
        self.out.flush()
    }
}
