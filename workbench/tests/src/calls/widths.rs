//! Wraps numbers.
//!
//! - `widths`: what so many bits keep of a number, as `8 128`.

use crate::images::number;
use crate::playing::NoAnswer;
use edd_syntax::wrap::wrap;

pub fn kept(text: &str) -> Result<String, NoAnswer> {
    let halves = text.split_once(' ');
    let (width, value) = halves.ok_or(NoAnswer::Row("not a width and a number"))?;
    match number(width)? {
        width @ 1..=64 => Ok(wrap(width, number(value)?).to_string()),
        _ => Err(NoAnswer::Row("no such width")),
    }
}
