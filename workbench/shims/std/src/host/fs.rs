//! Files.
use crate::io::{Read, Result, Write};
use crate::path::{Named, PathBuf};
use crate::real::{fs as real, io};
use crate::rt::Files;
use crate::string::String;
use crate::vec::Vec;
pub use real::{Metadata, Permissions};

/// An open file.
pub struct File(real::File);

/// A file of a handle, made of Rust's own.
pub trait FromReal {
    fn from_real(file: real::File) -> Self;
}

impl FromReal for File {
    fn from_real(file: real::File) -> File {
        File(file)
    }
}

/// What is asked of an open file.
pub trait OpenFile {
    fn metadata(&self) -> Result<Metadata>;
    fn set_permissions(&self, permissions: Permissions) -> Result<()>;
    fn sync_all(&self) -> Result<()>;
}

impl OpenFile for File {
    fn metadata(&self) -> Result<Metadata> {
        self.0.metadata()
    }

    fn set_permissions(&self, permissions: Permissions) -> Result<()> {
        self.0.set_permissions(permissions)
    }

    fn sync_all(&self) -> Result<()> {
        self.0.sync_all()
    }
}

impl Read for File {
    fn read(&mut self, room: &mut [u8]) -> Result<usize> {
        io::Read::read(&mut self.0, room)
    }
}

impl Write for File {
    fn write(&mut self, bytes: &[u8]) -> Result<usize> {
        io::Write::write(&mut self.0, bytes)
    }

    fn flush(&mut self) -> Result<()> {
        io::Write::flush(&mut self.0)
    }
}

/// How a file is opened.
pub struct OpenOptions(real::OpenOptions);

impl OpenOptions {
    #[allow(clippy::new_without_default)]
    pub fn new() -> OpenOptions {
        OpenOptions(real::OpenOptions::new())
    }

    pub fn write(mut self, is_on: bool) -> OpenOptions {
        self.0.write(is_on);
        self
    }

    pub fn create_new(mut self, is_on: bool) -> OpenOptions {
        self.0.create_new(is_on);
        self
    }

    pub fn open<R: Files, P: Named>(self, _: &R, name: P) -> Result<R::File> {
        self.0.open(name.path()).map(FromReal::from_real)
    }
}

pub fn open<R: Files, P: Named>(_: &R, name: P) -> Result<R::File> {
    real::File::open(name.path()).map(FromReal::from_real)
}

pub fn metadata<R, P: Named>(_: &R, name: P) -> Result<Metadata> {
    real::metadata(name.path())
}

pub fn symlink_metadata<R, P: Named>(_: &R, name: P) -> Result<Metadata> {
    real::symlink_metadata(name.path())
}

pub fn read_link<R, P: Named>(_: &R, name: P) -> Result<PathBuf> {
    real::read_link(name.path()).map(PathBuf)
}

pub fn rename<R, P: Named, Q: Named>(_: &R, old: P, new: Q) -> Result<()> {
    real::rename(old.path(), new.path())
}

pub fn remove_file<R, P: Named>(_: &R, name: P) -> Result<()> {
    real::remove_file(name.path())
}

pub fn create_dir<R, P: Named>(_: &R, name: P) -> Result<()> {
    real::create_dir(name.path())
}

pub fn copy<R, P: Named, Q: Named>(_: &R, old: P, new: Q) -> Result<u64> {
    real::copy(old.path(), new.path())
}

pub fn hard_link<R, P: Named, Q: Named>(_: &R, old: P, new: Q) -> Result<()> {
    real::hard_link(old.path(), new.path())
}

pub fn set_permissions<R, P: Named>(_: &R, name: P, permissions: Permissions) -> Result<()> {
    real::set_permissions(name.path(), permissions)
}

pub fn read<R, P: Named>(_: &R, name: P) -> Result<Vec<u8>> {
    real::read(name.path()).map(Vec::from_real)
}

/// What is written whole.
pub trait Bytes {
    fn bytes(&self) -> &[u8];
}

impl Bytes for &str {
    fn bytes(&self) -> &[u8] {
        self.as_bytes()
    }
}

impl Bytes for String {
    fn bytes(&self) -> &[u8] {
        self.as_bytes()
    }
}

impl Bytes for &[u8] {
    fn bytes(&self) -> &[u8] {
        self
    }
}

pub fn write<R, P: Named, B: Bytes>(_: &R, name: P, bytes: B) -> Result<()> {
    real::write(name.path(), bytes.bytes())
}

/// An entry of a folder.
pub struct DirEntry(real::DirEntry);

impl DirEntry {
    pub fn file_name(&self) -> String {
        String::from_real(self.0.file_name().into_string().unwrap_or_default())
    }
}

pub fn read_dir<R, P: Named>(_: &R, name: P) -> Result<impl Iterator<Item = Result<DirEntry>>> {
    let entries = real::read_dir(name.path())?;
    Ok(entries.map(|entry| entry.map(DirEntry)))
}
