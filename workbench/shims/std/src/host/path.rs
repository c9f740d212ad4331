//! Names of files.
use crate::alloc::{AllocError, Global};
use crate::real;
use crate::string::String;

#[derive(Clone, Copy, Debug)]
pub struct Path<'a>(&'a real::path::Path);

impl<'a> Path<'a> {
    pub fn new(name: &'a str) -> Path<'a> {
        Path(real::path::Path::new(name))
    }

    pub fn parent(self) -> Option<Path<'a>> {
        self.0.parent().map(Path)
    }

    pub fn join<P: Named>(self, _: Global, name: P) -> Result<PathBuf, AllocError> {
        let (own, added) = (self.0.as_os_str().len(), name.path().as_os_str().len());
        let mut joined = real::path::PathBuf::new();
        let room = own
            .checked_add(added)
            .and_then(|sum| sum.checked_add(1))
            .ok_or(AllocError)?;
        joined.try_reserve(room).map_err(|_| AllocError)?;
        joined.push(self.0);
        joined.push(name.path());
        Ok(PathBuf(joined))
    }
}

/// A name of its own.
pub struct PathBuf(pub real::path::PathBuf);

impl PathBuf {
    /// The name as text. One that is none becomes the empty name, which no file has.
    pub fn into_string(self) -> String {
        String::from_real(self.0.into_os_string().into_string().unwrap_or_default())
    }

    pub fn display(&self) -> real::path::Display<'_> {
        self.0.display()
    }
}

/// What names a file.
pub trait Named {
    fn path(&self) -> &real::path::Path;
}

impl Named for &str {
    fn path(&self) -> &real::path::Path {
        real::path::Path::new(*self)
    }
}

impl Named for String {
    fn path(&self) -> &real::path::Path {
        real::path::Path::new(self.as_str())
    }
}

impl Named for &String {
    fn path(&self) -> &real::path::Path {
        real::path::Path::new(self.as_str())
    }
}

impl Named for Path<'_> {
    fn path(&self) -> &real::path::Path {
        self.0
    }
}

impl Named for PathBuf {
    fn path(&self) -> &real::path::Path {
        &self.0
    }
}
