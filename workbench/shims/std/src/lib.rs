//! What the sources of `edd` need where the `std` that they are proved over differs from Rust's:
//! memory that is asked for and may be refused, and a handle for the system. All else is Rust's own.
//!
//! A crate of the plain edition is `#![no_std]` and depends on this one under the name `std`, so that
//! its paths `std::..` lead here. Without the feature `host` nothing but core and alloc is needed.
//!
//! Memory that can't be refused on stable Rust is that of `BTreeMap` and `BTreeSet`: there a program
//! ends, as Rust's own programs do.
#![no_std]
#![deny(unsafe_code)]
extern crate alloc as heap;
#[cfg(feature = "host")]
extern crate std as real;

pub use core::{
    cell, char, cmp, convert, error, hash, iter, mem, num, ops, option, result, slice, str,
};

pub mod alloc;
pub mod boxed;
pub mod collections;
pub mod fmt {
    pub use core::fmt::*;
}
pub mod io;
pub mod marker;
pub mod prelude;
pub mod rc;
mod sort;
pub mod string;
pub mod test;
pub mod vec;

#[cfg(feature = "host")]
mod host;
#[cfg(feature = "host")]
pub use host::{env, fs, os, path, process, rt};

pub use edd_plain_derive::test;

/// Stands for the `Drop` that every type has where sources are proved.
pub trait Droppable {}

impl<T: ?Sized> Droppable for T {}

#[macro_export]
macro_rules! vec {
    [in $alloc:expr; $value:expr; $count:expr] => { $crate::vec::Vec::from_elem($alloc, $value, $count) };
    [in $alloc:expr; $($value:expr),+ $(,)?] => { $crate::vec::Vec::from_array($alloc, [$($value),+]) };
    [in $alloc:expr] => { $crate::vec::Vec::from_array($alloc, []) };
}

#[macro_export]
macro_rules! format {
    (in $alloc:expr; $($text:tt)*) => { $crate::string::formatted($alloc, format_args!($($text)*)) };
}

#[macro_export]
macro_rules! println {
    ($rt:expr; $($text:tt)*) => { $rt.println(format_args!($($text)*)) };
}

#[macro_export]
macro_rules! print {
    ($rt:expr; $($text:tt)*) => { $rt.print(format_args!($($text)*)) };
}

#[macro_export]
macro_rules! eprintln {
    ($rt:expr; $($text:tt)*) => { $rt.eprintln(format_args!($($text)*)) };
}
