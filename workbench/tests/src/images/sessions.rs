//! Drives a method by a device, as docs/EMBEDDING.md does.
//!
//! - `driven`: how method 0 ends, and variable 0 after it. The variable begins with 5, and the device answers
//!   each command with seven times its number.

use super::hosts::Device;
use super::small::image_of;
use crate::playing::NoAnswer;
use edd_loader::{Image, load};
use edd_machine::Values;
use edd_plain_std::alloc::Global;
use edd_port::{Session, drive};
use edd_syntax::numbers::{MethNo, VarNo};

/// Starts the method 0 of an image with one variable of this value.
pub fn started<'i, 'b>(image: &'i Image<'b>, value: i64) -> Result<Session<'i, 'b>, NoAnswer> {
    let values = Values::new(Global, image, &[value]);
    let values = values.map_err(|_| NoAnswer::Row("an image without just one variable"))?;
    let session = Session::start(image, MethNo(0), values);
    session.map_err(|_| NoAnswer::Row("an image without a method"))
}

/// The example of docs/EMBEDDING.md.
fn example(image: &Image<'_>) -> Result<String, NoAnswer> {
    let mut session = started(image, 5)?;
    let mut host = Device::default();
    let end = drive(&mut session, &mut host, 1000);
    Ok(format!("{end:?} {:?}", session.values().get(VarNo(0))))
}

pub fn driven(image: &str) -> Result<String, NoAnswer> {
    let bytes = image_of(image)?;
    match load(Global, &bytes) {
        Ok(image) => example(&image),
        Err(fault) => Ok(fault.to_string()),
    }
}
