//! A text whose growth may be refused.
use crate::alloc::{AllocError, Global};
use crate::heap::string as real;
use crate::vec::Vec;
use core::fmt;

/// A text.
#[derive(PartialEq, Eq, Hash, PartialOrd, Ord)]
pub struct String(real::String);

impl String {
    pub const fn new(_: Global) -> String {
        String(real::String::new())
    }

    /// A text of Rust's own as one of these.
    pub fn from_real(text: real::String) -> String {
        String(text)
    }

    pub fn with_capacity(_: Global, count: usize) -> Result<String, AllocError> {
        let mut text = real::String::new();
        text.try_reserve_exact(count).map_err(|_| AllocError)?;
        Ok(String(text))
    }

    pub fn from_str(alloc: Global, text: &str) -> Result<String, AllocError> {
        let mut made = String::with_capacity(alloc, text.len())?;
        made.0.push_str(text);
        Ok(made)
    }

    pub fn from_utf8(bytes: Vec<u8>) -> Result<String, real::FromUtf8Error> {
        real::String::from_utf8(bytes.into_real()).map(String)
    }

    pub fn push_str(&mut self, text: &str) -> Result<(), AllocError> {
        self.0.try_reserve(text.len()).map_err(|_| AllocError)?;
        self.0.push_str(text);
        Ok(())
    }

    pub fn push(&mut self, letter: char) -> Result<(), AllocError> {
        self.0
            .try_reserve(letter.len_utf8())
            .map_err(|_| AllocError)?;
        self.0.push(letter);
        Ok(())
    }

    pub fn as_str(&self) -> &str {
        &self.0
    }

    pub fn clone(&self) -> Result<String, AllocError> {
        String::from_str(Global, &self.0)
    }

    pub fn into_bytes(self) -> Vec<u8> {
        Vec::from_real(self.0.into_bytes())
    }

    pub fn allocator(&self) -> &Global {
        &Global
    }

    pub fn truncate(&mut self, count: usize) {
        self.0.truncate(count);
    }

    pub fn clear(&mut self) {
        self.0.clear();
    }

    pub fn pop(&mut self) -> Option<char> {
        self.0.pop()
    }

    /// `write!` to a text, which fails for lack of memory alone.
    pub fn write_fmt(&mut self, arguments: fmt::Arguments<'_>) -> Result<(), AllocError> {
        fmt::Write::write_fmt(self, arguments).map_err(|_| AllocError)
    }
}

impl fmt::Write for String {
    fn write_str(&mut self, text: &str) -> fmt::Result {
        self.push_str(text).map_err(|_| fmt::Error)
    }
}

impl fmt::Debug for String {
    fn fmt(&self, f: &mut fmt::Formatter<'_>) -> fmt::Result {
        self.0.fmt(f)
    }
}

impl fmt::Display for String {
    fn fmt(&self, f: &mut fmt::Formatter<'_>) -> fmt::Result {
        self.0.fmt(f)
    }
}

impl core::ops::Deref for String {
    type Target = str;
    fn deref(&self) -> &str {
        &self.0
    }
}

impl core::borrow::Borrow<str> for String {
    fn borrow(&self) -> &str {
        &self.0
    }
}

impl AsRef<str> for String {
    fn as_ref(&self) -> &str {
        &self.0
    }
}

impl PartialEq<str> for String {
    fn eq(&self, other: &str) -> bool {
        self.0 == *other
    }
}

impl PartialEq<&str> for String {
    fn eq(&self, other: &&str) -> bool {
        self.0 == **other
    }
}

impl PartialEq<String> for str {
    fn eq(&self, other: &String) -> bool {
        *self == *other.0
    }
}

impl PartialEq<String> for &str {
    fn eq(&self, other: &String) -> bool {
        **self == *other.0
    }
}

/// What `format!` makes.
pub fn formatted(alloc: Global, arguments: fmt::Arguments<'_>) -> Result<String, AllocError> {
    let mut text = String::new(alloc);
    text.write_fmt(arguments)?;
    Ok(text)
}

/// `to_string` on an allocator.
pub trait ToText {
    fn to_string(&self, alloc: Global) -> Result<String, AllocError>;
}

impl<T: fmt::Display + ?Sized> ToText for T {
    fn to_string(&self, alloc: Global) -> Result<String, AllocError> {
        formatted(alloc, format_args!("{self}"))
    }
}

/// `to_owned` on an allocator.
pub trait ToOwnedText {
    fn to_owned(&self, alloc: Global) -> Result<String, AllocError>;
}

impl ToOwnedText for str {
    fn to_owned(&self, alloc: Global) -> Result<String, AllocError> {
        String::from_str(alloc, self)
    }
}

#[cfg(feature = "serde")]
impl serde::Serialize for String {
    fn serialize<S: serde::Serializer>(&self, to: S) -> Result<S::Ok, S::Error> {
        to.serialize_str(&self.0)
    }
}
