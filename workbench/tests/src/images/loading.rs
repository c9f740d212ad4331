//! Loads images.
//!
//! - `loads`: the answer to an image. An image that loads has to return its own bytes, and is shown and run.
//! - `edits`: the answer after bytes are set, as `5=2 of label`, and the rest is cut, as `5=2 of label to 56`.
//! - `prefixes`: the answers to all prefixes, each with the first length that has it.
//! - `counts`: each byte is set to each other value; how many of these edits load, and how many are refused
//!   with each error. `tools/count_edits` counts them by a second reading of the rules.
//! - `words`: the name of variable 0 and the German text of string 0, of the worked image `label` or of the
//!   same image with a key as its string.

use super::small::image_of;
use super::using::is_usable;
use super::words::number;
use super::worked::LABEL;
use crate::playing::NoAnswer;
use edd_loader::{LoadFault, Text, load};
use edd_plain_std::alloc::Global;
use edd_syntax::numbers::{ItemNo, StrNo, VarNo};

/// The outcome of a load.
#[derive(Debug, Clone, Copy, PartialEq, Eq)]
enum Outcome {
    Image,
    /// An image that returns other bytes than its own.
    OtherBytes,
    /// An image that is not shown, or a method of it that does not run.
    Useless,
    Refused(LoadFault),
}

impl Outcome {
    fn of(bytes: &[u8]) -> Self {
        match load(Global, bytes) {
            Ok(image) if image.bytes() != bytes => Outcome::OtherBytes,
            Ok(image) if is_usable(&image) => Outcome::Image,
            Ok(_) => Outcome::Useless,
            Err(fault) => Outcome::Refused(fault),
        }
    }

    fn text(self) -> String {
        match self {
            Outcome::Image => "an image".to_owned(),
            Outcome::OtherBytes => "other bytes".to_owned(),
            Outcome::Useless => "not shown or not run".to_owned(),
            Outcome::Refused(fault) => fault.to_string(),
        }
    }
}

pub fn loaded(image: &str) -> Result<String, NoAnswer> {
    Ok(Outcome::of(&image_of(image)?).text())
}

/// Sets a byte, as `5=2`.
fn edit(bytes: &mut [u8], edit: &str) -> Result<(), NoAnswer> {
    let halves = edit.split_once('=');
    let (place, value) = halves.ok_or(NoAnswer::Row("not a place and its byte"))?;
    let byte = bytes.get_mut(number::<usize>(place)?);
    *byte.ok_or(NoAnswer::Row("a place behind the bytes"))? = number(value)?;
    Ok(())
}

pub fn edited(text: &str) -> Result<String, NoAnswer> {
    let halves = text.split_once(" of ");
    let (edits, image) = halves.ok_or(NoAnswer::Row("not edits of an image"))?;
    let (image, length) = match image.split_once(" to ") {
        Some((image, length)) => (image, Some(number(length)?)),
        None => (image, None),
    };
    let mut bytes = image_of(image)?;
    bytes.truncate(length.unwrap_or(bytes.len()));
    for word in edits.split_ascii_whitespace() {
        edit(&mut bytes, word)?;
    }
    Ok(Outcome::of(&bytes).text())
}

pub fn prefixes(image: &str) -> Result<String, NoAnswer> {
    let bytes = image_of(image)?;
    let mut answers = Vec::new();
    let mut last = None;
    for length in 0..=bytes.len() {
        let outcome = bytes.get(..length).map(Outcome::of);
        if let Some(new) = outcome.filter(|_| outcome != last) {
            answers.push(format!("from {length} {};", new.text()));
        }
        last = outcome;
    }
    Ok(answers.join(" "))
}

/// How many edits have each outcome: an image, each error by its number, and last what cannot occur.
#[derive(Debug, Default)]
struct Counts([u32; 13]);

impl Counts {
    fn add(&mut self, outcome: Outcome) {
        let at = match outcome {
            Outcome::Image => 0,
            Outcome::Refused(LoadFault::Short) => 1,
            Outcome::Refused(LoadFault::Magic) => 2,
            Outcome::Refused(LoadFault::Version) => 3,
            Outcome::Refused(LoadFault::Length) => 4,
            Outcome::Refused(LoadFault::Row) => 5,
            Outcome::Refused(LoadFault::Name) => 6,
            Outcome::Refused(LoadFault::Text) => 7,
            Outcome::Refused(LoadFault::Instruction) => 8,
            Outcome::Refused(LoadFault::Jump) => 9,
            Outcome::Refused(LoadFault::Depth) => 10,
            Outcome::Refused(LoadFault::Reference) => 11,
            Outcome::OtherBytes | Outcome::Useless | Outcome::Refused(LoadFault::Memory) => 12,
        };
        if let Some(count) = self.0.get_mut(at) {
            *count = count.saturating_add(1);
        }
    }
}

pub fn counts(image: &str) -> Result<String, NoAnswer> {
    let image = image_of(image)?;
    let mut bytes = image.clone();
    let mut counts = Counts::default();
    for (place, byte) in image.iter().enumerate() {
        for other in (0..=u8::MAX).filter(|other| other != byte) {
            if let Some(changed) = bytes.get_mut(place) {
                *changed = other;
            }
            counts.add(Outcome::of(&bytes));
        }
        if let Some(changed) = bytes.get_mut(place) {
            *changed = *byte;
        }
    }
    Ok(format!("{:?}", counts.0))
}

/// Returns words that outlive their image.
fn words_of(bytes: &[u8]) -> Result<(Option<&str>, Option<Text<'_>>), LoadFault> {
    let image = load(Global, bytes)?;
    let name = image.name(ItemNo::Variable(VarNo(0)));
    Ok((name, image.text(StrNo(0), "de")))
}

pub fn words(text: &str) -> Result<String, NoAnswer> {
    let mut bytes = LABEL.to_vec();
    match text {
        "label" => {}
        "a key" => {
            bytes.truncate(97);
            bytes.extend(b"\x01the_pressure_of_the_process");
        }
        _ => return Err(NoAnswer::Row("no such image")),
    }
    Ok(match words_of(&bytes) {
        Ok((name, text)) => format!("{name:?} {text:?}"),
        Err(fault) => fault.to_string(),
    })
}

#[cfg(test)]
mod tests {
    use super::*;

    #[test]
    fn edits_are_of_places_in_the_image() {
        assert_eq!(edited("0=0 of loop").as_deref(), Ok("102 MAGIC"));
        assert_eq!(
            edited("4=0 of loop to 4"),
            Err(NoAnswer::Row("a place behind the bytes"))
        );
        assert!(edited("0 of loop").is_err());
        assert!(edited("0=256 of loop").is_err());
    }

    #[test]
    fn outcomes_that_can_not_be_are_counted_last() {
        let mut counts = Counts::default();
        counts.add(Outcome::Useless);
        counts.add(Outcome::Refused(LoadFault::Memory));
        counts.add(Outcome::Refused(LoadFault::Reference));
        assert_eq!(counts.0[10..], [0, 1, 2]);
    }
}
