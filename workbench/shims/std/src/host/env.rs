//! The words of the command line.
use crate::alloc::Global;
use crate::io::Result;
use crate::real;
use crate::string::String;
use crate::vec::Vec;

/// The words, the program's name first.
pub struct Args;

pub fn args<R>(_: &R) -> Result<Args> {
    Ok(Args)
}

impl Args {
    /// All words, where they are text. Rust asks for their memory by itself, and ends where it gets
    /// none.
    pub fn collect(self, alloc: Global) -> Result<Vec<String>> {
        let mut all = Vec::new(alloc);
        for word in real::env::args_os() {
            match word.into_string() {
                Ok(word) => all.push(String::from_real(word))?,
                Err(_) => return Err(real::io::ErrorKind::InvalidData.into()),
            }
        }
        Ok(all)
    }
}
