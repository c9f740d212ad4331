//! The fields of the header, which may be incomplete.

use edd_image::{CODE_LIMIT, HEADER_LENGTH, Version, code_length, total_length, version};
use edd_loader::{LoadFault, Spot};
use std::fmt;

/// The names and widths of the fields, in order. Only version 2 has the last three.
const FIELDS: [(&str, usize); 21] = [
    ("magic", 4),
    ("version", 2),
    ("zero", 2),
    ("length", 4),
    ("manufacturer", 4),
    ("device_type", 4),
    ("device_revision", 4),
    ("dd_revision", 4),
    ("variables", 2),
    ("commands", 2),
    ("menus", 2),
    ("collections", 2),
    ("methods", 2),
    ("strings", 2),
    ("attribute_rows", 4),
    ("name_bytes", 4),
    ("code", 4),
    ("string_bytes", 4),
    ("arrays", 2),
    ("second_zero", 2),
    ("element_rows", 4),
];

/// A field of the header that is there as a whole.
#[derive(Clone, Copy, Debug)]
pub(crate) struct Field<'b> {
    name: &'static str,
    place: usize,
    bytes: &'b [u8],
}

/// The header, as far as the bytes reach.
pub(crate) struct Header<'b> {
    bytes: &'b [u8],
    fields: Vec<Field<'b>>,
    is_complete: bool,
}

/// What is wrong with the header.
pub(crate) enum HeaderFault<'b> {
    /// The bytes end within it.
    Ends,
    /// This field is wrong.
    Field(Field<'b>),
}

impl<'b> Header<'b> {
    /// Reads all fields that are there as a whole.
    pub(crate) fn read(bytes: &'b [u8]) -> Header<'b> {
        let length = header_length(bytes);
        let mut fields = Vec::new();
        let mut place: usize = 0;
        for (name, width) in FIELDS {
            let end = place.saturating_add(width);
            match bytes.get(place..end) {
                Some(bytes) if end <= length => fields.push(Field { name, place, bytes }),
                _ => break,
            }
            place = end;
        }
        Header {
            bytes,
            fields,
            is_complete: place == length,
        }
    }

    /// The fields to print before a fault. After a wrong magic or version the rest means nothing.
    pub(crate) fn fields_before(&self, fault: Option<LoadFault>) -> &[Field<'b>] {
        let count = match fault {
            Some(LoadFault::Magic) => 1,
            Some(LoadFault::Version) => 2,
            _ => self.fields.len(),
        };
        self.fields.get(..count).unwrap_or(&self.fields)
    }

    /// What is wrong, if the fault is in the header.
    pub(crate) fn fault(&self, fault: LoadFault, spot: Spot) -> Option<HeaderFault<'b>> {
        let wrong = match (fault, spot) {
            (LoadFault::Short, _) => None,
            (LoadFault::Magic, _) => Some("magic"),
            (LoadFault::Version, _) => Some("version"),
            (_, Spot::Header) => self.wrong_length(),
            (_, Spot::Zero) => Some("zero"),
            (_, Spot::SecondZero) => Some("second_zero"),
            _ => return None,
        };
        let field = wrong.and_then(|name| self.fields.iter().find(|field| field.name == name));
        Some(field.map_or(HeaderFault::Ends, |field| HeaderFault::Field(*field)))
    }

    /// The field with a wrong length: that of the whole, that of the code, or else the count of
    /// attribute rows, which stands for all sections. None if the header is incomplete.
    fn wrong_length(&self) -> Option<&'static str> {
        if !self.is_complete {
            return None;
        }
        if usize::try_from(total_length(self.bytes)) != Ok(self.bytes.len()) {
            return Some("length");
        }
        match usize::try_from(code_length(self.bytes)) {
            Ok(length) if length <= CODE_LIMIT => Some("attribute_rows"),
            _ => Some("code"),
        }
    }
}

/// The length of the header of this version.
fn header_length(bytes: &[u8]) -> usize {
    // The version is in bytes 4 and 5.
    let version = bytes.get(..6).and_then(version);
    version.map_or(HEADER_LENGTH, Version::header_size)
}

impl Field<'_> {
    /// The place of its first byte.
    pub(crate) fn place(&self) -> usize {
        self.place
    }

    /// Its name.
    pub(crate) fn name(&self) -> &'static str {
        self.name
    }
}

/// The name and the value. The magic is printed as bytes.
impl fmt::Display for Field<'_> {
    fn fmt(&self, f: &mut fmt::Formatter<'_>) -> fmt::Result {
        match *self.bytes {
            [a, b, c, d] if self.place == 0 => {
                write!(f, "{} {a:02X} {b:02X} {c:02X} {d:02X}", self.name)
            }
            [a, b, c, d] => write!(f, "{} {}", self.name, u32::from_be_bytes([a, b, c, d])),
            [a, b] => write!(f, "{} {}", self.name, u16::from_be_bytes([a, b])),
            _ => f.write_str(self.name),
        }
    }
}
