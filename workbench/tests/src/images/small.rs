//! Images that a text names: a worked one by its name, or a small one by its parts.

use super::words::{around_colon, first_of, number, reference_of};
use super::worked::worked_image;
use crate::playing::NoAnswer;
use edd_syntax::numbers::AttrRef;

/// The numbers of two types.
const INTEGER: u8 = 1;

const UNSIGNED: u8 = 2;

/// The sections of a small image. Each name is one letter.
#[derive(Default)]
struct Sections {
    is_second: bool,
    /// A row for each variable.
    variables: Vec<[u8; 4]>,
    methods: u8,
    /// A row for each attribute.
    attributes: Vec<Vec<u8>>,
    code: Vec<u8>,
}

/// Returns a count or a length as an image has it.
fn field(count: usize) -> Result<u32, NoAnswer> {
    u32::try_from(count).map_err(|_| NoAnswer::Row("too long for an image"))
}

/// Reads bytes of two digits each.
fn hex_of(words: &str) -> Result<Vec<u8>, NoAnswer> {
    let bytes = words
        .split_ascii_whitespace()
        .map(|word| u8::from_str_radix(word, 16));
    bytes
        .collect::<Result<_, _>>()
        .map_err(|_| NoAnswer::Row("not a byte of two digits"))
}

/// Reads code, in pieces with semicolons between them; `20 * 06 00` is a piece 20 times.
pub fn code_of(text: &str) -> Result<Vec<u8>, NoAnswer> {
    let pieces = text.split(';').map(|piece| match piece.split_once(" * ") {
        Some((times, words)) => Ok(hex_of(words)?.repeat(number(times.trim())?)),
        None => hex_of(piece),
    });
    Ok(pieces.collect::<Result<Vec<_>, NoAnswer>>()?.concat())
}

impl Sections {
    /// Adds a part.
    ///
    /// - `second` is the version.
    /// - `integer SIZE` and `unsigned SIZE` are variables.
    /// - `methods COUNT` is how many methods there are.
    /// - `ATTRIBUTE POSITION of ITEM : CODE` is a row with its code.
    fn take(&mut self, part: &str) -> Result<(), NoAnswer> {
        let (word, rest) = first_of(part);
        match word {
            "second" => self.is_second = true,
            "methods" => self.methods = number(rest)?,
            "integer" => self.variables.push([INTEGER, number(rest)?, 0, 0]),
            "unsigned" => self.variables.push([UNSIGNED, number(rest)?, 0, 0]),
            _ => {
                let (attribute, code) = around_colon(part);
                self.push_unit(reference_of(attribute)?, &code_of(code)?)?;
            }
        }
        Ok(())
    }

    /// Adds the row of an attribute, and its code.
    fn push_unit(&mut self, of: AttrRef, unit: &[u8]) -> Result<(), NoAnswer> {
        let mut row = vec![of.item.kind().number(), of.attr.number()];
        row.extend(of.item.index().to_be_bytes());
        row.extend(of.sub.to_be_bytes());
        row.extend([0, 0]);
        row.extend(field(self.code.len())?.to_be_bytes());
        row.extend(field(unit.len())?.to_be_bytes());
        self.attributes.push(row);
        self.code.extend(unit);
        Ok(())
    }

    /// Counts its variables.
    fn variable_count(&self) -> Result<u8, NoAnswer> {
        u8::try_from(self.variables.len()).map_err(|_| NoAnswer::Row("more than 255 variables"))
    }

    /// Makes the header of an image with so many names, and so many bytes behind the header.
    fn header(&self, names: u8, behind: usize) -> Result<Vec<u8>, NoAnswer> {
        let (version, length) = if self.is_second {
            (2, 64_usize)
        } else {
            (1, 56)
        };
        let mut header = b"EDI1".to_vec();
        header.extend([0, version, 0, 0]);
        header.extend(field(length.saturating_add(behind))?.to_be_bytes());
        header.extend([0, 0, 0, 1, 0, 0, 0, 2, 0, 0, 0, 3, 0, 0, 0, 4]);
        header.extend([0, self.variable_count()?, 0, 0, 0, 0, 0, 0]);
        header.extend([0, self.methods, 0, 0]);
        header.extend(field(self.attributes.len())?.to_be_bytes());
        header.extend(u32::from(names).to_be_bytes());
        header.extend(field(self.code.len())?.to_be_bytes());
        header.resize(length, 0);
        Ok(header)
    }

    /// Makes the image.
    fn image(&self) -> Result<Vec<u8>, NoAnswer> {
        let names = self.variable_count()?.saturating_add(self.methods);
        // All names are one letter, each at its own place.
        let name_rows: Vec<_> = (0..names).map(|name| [0, 0, 0, name, 0, 1, 0, 0]).collect();
        let behind = [
            self.variables.concat(),
            name_rows.concat(),
            self.attributes.concat(),
            self.code.clone(),
            vec![b'a'; names.into()],
        ]
        .concat();
        Ok([self.header(names, behind.len())?, behind].concat())
    }
}

/// Returns a worked image by its name, or a small one by its parts with a `|` between them.
pub fn image_of(text: &str) -> Result<Vec<u8>, NoAnswer> {
    if let Some(bytes) = worked_image(text) {
        return Ok(bytes.to_vec());
    }
    let mut sections = Sections::default();
    for part in text.split('|') {
        sections.take(part.trim())?;
    }
    sections.image()
}

#[cfg(test)]
mod tests {
    use super::super::worked::LOOP;
    use super::*;

    #[test]
    fn code_is_read_in_pieces() {
        assert_eq!(
            code_of("01 0a; 2 * 06 00;ff"),
            Ok(vec![1, 10, 6, 0, 6, 0, 255])
        );
        assert_eq!(code_of(" "), Ok(Vec::new()));
        assert!(code_of("0g").is_err());
        assert!(code_of("x * 00").is_err());
    }

    #[test]
    fn the_worked_loop_is_a_small_image_but_for_its_name() {
        let mut small = image_of("methods 1 | DEFINITION 0 of method 0 : 30 00 00 00 00").unwrap();
        *small.last_mut().unwrap() = b'm';
        assert_eq!(small, LOOP);
        assert_eq!(image_of("loop").unwrap(), LOOP);
    }

    #[test]
    fn the_second_version_has_a_longer_header() {
        let small = image_of("second | integer 2 | unsigned 4").unwrap();
        assert_eq!(small.len(), 64 + 2 * (4 + 8 + 1));
        assert_eq!(small[5], 2);
    }

    #[test]
    fn other_parts_are_refused() {
        assert!(image_of("third").is_err());
        assert!(image_of("integer").is_err());
        assert!(image_of("integer 300").is_err());
    }
}
