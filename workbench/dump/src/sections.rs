//! The sections of an image and their rows.

use edd_image::{
    ATTRIBUTE_ROW, Counts, ELEMENT_ROW, HEADER_LENGTH, NAME_ROW, STRING_ROW, VARIABLE_ROW, VarKind,
    Version, attribute_item, attribute_kind, attribute_length, attribute_number,
    attribute_rows_start, attribute_start, attribute_sub, code_start, counts, element_array,
    element_number, element_rows_start, element_variable, name_bytes_start, name_length,
    name_rows_start, name_start, sections_end, string_bytes_start, string_length,
    string_rows_start, string_start, type_of, variable_padding, variable_rows_start, variable_size,
    variable_type, version,
};
use edd_syntax::numbers::{ArrNo, Attr, Element, ItemNo, KINDS, Kind, StrNo, VarNo};
use std::fmt;

/// The longest name that is read. In a damaged image many rows may refer to the same long bytes.
const LONGEST_NAME: u32 = 255;

/// The sections of an image. Their rows may break the rules of images.
///
/// ```
/// use edd_dump::{Sections, variants};
/// use edd_syntax::numbers::{ItemNo, VarNo};
///
/// let source = br#"MANUFACTURER 1, DEVICE_TYPE 2, DEVICE_REVISION 3, DD_REVISION 4
/// VARIABLE p { LABEL "Pressure"; TYPE INTEGER (2); }"#;
/// let image = edd_compiler::compile(core_std::alloc::Global, source).unwrap();
/// let sections = Sections::read(&image).unwrap();
/// assert_eq!(sections.name(ItemNo::Variable(VarNo(0))), Some("p"));
/// assert_eq!(variants(sections.strings().next().unwrap()).next().unwrap().text, "Pressure");
/// ```
#[derive(Clone, Copy, Debug)]
pub struct Sections<'b> {
    counts: Counts,
    pub(crate) has_elements: bool,
    pub(crate) variable_rows: Section<'b>,
    pub(crate) name_rows: Section<'b>,
    pub(crate) attribute_rows: Section<'b>,
    pub(crate) element_rows: Section<'b>,
    pub(crate) code: Section<'b>,
    pub(crate) string_rows: Section<'b>,
    pub(crate) names: Section<'b>,
    pub(crate) strings: Section<'b>,
}

/// A section: its place in the image, and its bytes.
#[derive(Clone, Copy, Debug)]
pub(crate) struct Section<'b> {
    pub(crate) start: usize,
    pub(crate) bytes: &'b [u8],
}

/// A part of a section, as a row claims it. It may lie outside.
#[derive(Clone, Copy, Debug, PartialEq, Eq)]
pub struct Span {
    /// The place of its first byte in the section.
    pub start: u32,
    /// The number of bytes.
    pub length: u32,
}

/// The fields of a variable row.
pub(crate) struct VariableRow {
    pub(crate) kind: u8,
    pub(crate) size: u8,
    pub(crate) zero: u16,
}

/// The fields of an attribute row.
#[derive(Clone, Copy, Debug, PartialEq, Eq)]
pub struct AttributeRow {
    /// The number of the item's kind.
    pub kind: u8,
    /// The number of the attribute.
    pub attribute: u8,
    /// The number of the item among those of its kind.
    pub item: u16,
    /// The position of a transaction, the number of slots of a method, or 0.
    pub sub: u16,
    /// The unit in the code.
    pub unit: Span,
}

impl<'b> Sections<'b> {
    /// Locates the sections. Returns None if the header is incomplete, its version unknown, or a
    /// section outside of the bytes.
    pub fn read(bytes: &'b [u8]) -> Option<Sections<'b>> {
        if bytes.len() < HEADER_LENGTH {
            return None;
        }
        let version = version(bytes)?;
        let section = |start: u64, end: u64| {
            let (start, end) = (usize::try_from(start).ok()?, usize::try_from(end).ok()?);
            let bytes = bytes.get(start..end)?;
            Some(Section { start, bytes })
        };
        let variables = u64::try_from(variable_rows_start(bytes)).ok()?;
        let names = u64::try_from(name_rows_start(bytes)).ok()?;
        let attributes = u64::try_from(attribute_rows_start(bytes)).ok()?;
        let (elements, code) = (element_rows_start(bytes), code_start(bytes));
        let (strings, name_bytes) = (string_rows_start(bytes), name_bytes_start(bytes));
        let string_bytes = string_bytes_start(bytes);
        Some(Sections {
            counts: counts(bytes),
            has_elements: version == Version::Two,
            variable_rows: section(variables, names)?,
            name_rows: section(names, attributes)?,
            attribute_rows: section(attributes, elements)?,
            element_rows: section(elements, code)?,
            code: section(code, strings)?,
            string_rows: section(strings, name_bytes)?,
            names: section(name_bytes, string_bytes)?,
            strings: section(string_bytes, sections_end(bytes))?,
        })
    }

    /// All items, by kind and number.
    pub fn items(&self) -> impl Iterator<Item = ItemNo> + use<> {
        let counts = self.counts;
        KINDS
            .into_iter()
            .flat_map(move |kind| items_of(counts, kind))
    }

    /// The items of one kind, by their numbers.
    pub fn items_of(&self, kind: Kind) -> impl Iterator<Item = ItemNo> + use<> {
        items_of(self.counts, kind)
    }

    /// The name of an item. None if there is no such item, or its name cannot be read.
    pub fn name(&self, item: ItemNo) -> Option<&'b str> {
        if !self.counts.has_item(item) {
            return None;
        }
        let before = KINDS.iter().take_while(|kind| **kind != item.kind());
        let before = before.map(|kind| usize::from(count_of(self.counts, *kind)));
        let place = before.fold(usize::from(item.index()), usize::saturating_add);
        let span = self.name_span(place)?;
        if LONGEST_NAME < span.length {
            return None;
        }
        str::from_utf8(self.names.part(span)?).ok()
    }

    /// The type and the size of a variable. None if there is no such variable, or its row is invalid.
    pub fn variable(&self, number: VarNo) -> Option<VarKind> {
        let row = self.variable_row(usize::from(number.0))?;
        let var_type = type_of(row.kind)?;
        let is_valid = row.zero == 0 && (1..=4).contains(&row.size);
        is_valid.then_some(VarKind {
            var_type,
            size: row.size,
        })
    }

    /// The attribute rows, in order.
    pub fn rows(&self) -> impl Iterator<Item = AttributeRow> + use<'b> {
        let rows = self.attribute_rows.bytes.chunks_exact(ATTRIBUTE_ROW);
        rows.map(AttributeRow::read)
    }

    /// The code of a row. None if it lies outside of the section.
    pub fn unit(&self, row: &AttributeRow) -> Option<&'b [u8]> {
        self.code.part(row.unit)
    }

    /// The bytes of a string. None if there is no such string, or it lies outside of the section.
    pub fn string(&self, number: StrNo) -> Option<&'b [u8]> {
        self.strings.part(self.string_span(usize::from(number.0))?)
    }

    /// All strings, by number. One that lies outside of the section is empty.
    pub fn strings(&self) -> impl Iterator<Item = &'b [u8]> {
        let numbers = (0..self.counts.strings).map(StrNo);
        numbers.map(|number| self.string(number).unwrap_or_default())
    }

    pub(crate) fn variable_row(&self, number: usize) -> Option<VariableRow> {
        let row = self.variable_rows.row(VARIABLE_ROW, number)?;
        Some(VariableRow {
            kind: variable_type(row, 0),
            size: variable_size(row, 0),
            zero: variable_padding(row, 0),
        })
    }

    /// The span of a name, by its index among the items of all kinds.
    pub(crate) fn name_span(&self, place: usize) -> Option<Span> {
        let row = self.name_rows.row(NAME_ROW, place)?;
        Some(Span {
            start: name_start(row, 0),
            length: u32::from(name_length(row, 0)),
        })
    }

    pub(crate) fn attribute_row(&self, number: usize) -> Option<AttributeRow> {
        let row = self.attribute_rows.row(ATTRIBUTE_ROW, number)?;
        Some(AttributeRow::read(row))
    }

    /// The fields of an element row. Its array and its variable need not exist.
    pub(crate) fn element(&self, number: usize) -> Option<Element> {
        let row = self.element_rows.row(ELEMENT_ROW, number)?;
        Some(Element {
            array: ArrNo(element_array(row, 0)),
            number: element_number(row, 0),
            var: VarNo(element_variable(row, 0)),
        })
    }

    pub(crate) fn string_span(&self, number: usize) -> Option<Span> {
        let row = self.string_rows.row(STRING_ROW, number)?;
        Some(Span {
            start: string_start(row, 0),
            length: string_length(row, 0),
        })
    }
}

fn items_of(counts: Counts, kind: Kind) -> impl Iterator<Item = ItemNo> {
    (0..count_of(counts, kind)).map(move |number| kind.item(number))
}

/// How many items of a kind there are.
fn count_of(counts: Counts, kind: Kind) -> u16 {
    match kind {
        Kind::Variable => counts.variables,
        Kind::Command => counts.commands,
        Kind::Menu => counts.menus,
        Kind::Collection => counts.collections,
        Kind::Method => counts.methods,
        Kind::Array => counts.arrays,
    }
}

impl<'b> Section<'b> {
    fn row(&self, width: usize, number: usize) -> Option<&'b [u8]> {
        self.bytes.chunks_exact(width).nth(number)
    }

    fn part(&self, span: Span) -> Option<&'b [u8]> {
        let start = usize::try_from(span.start).ok()?;
        let length = usize::try_from(span.length).ok()?;
        self.bytes.get(start..start.checked_add(length)?)
    }
}

impl AttributeRow {
    /// The fields of a whole row.
    fn read(row: &[u8]) -> AttributeRow {
        AttributeRow {
            kind: attribute_kind(row, 0),
            attribute: attribute_number(row, 0),
            item: attribute_item(row, 0),
            sub: attribute_sub(row, 0),
            unit: Span {
                start: attribute_start(row, 0),
                length: attribute_length(row, 0),
            },
        }
    }

    /// The item and the attribute. None if there is no such kind or attribute; the item need not exist.
    pub fn names(&self) -> Option<(ItemNo, Attr)> {
        let item = ItemNo::from_numbers(self.kind, self.item)?;
        Some((item, Attr::from_number(self.attribute)?))
    }
}

impl fmt::Display for VariableRow {
    fn fmt(&self, f: &mut fmt::Formatter<'_>) -> fmt::Result {
        let VariableRow { kind, size, zero } = self;
        write!(f, "type {kind} size {size} zero {zero}")
    }
}

impl fmt::Display for AttributeRow {
    fn fmt(&self, f: &mut fmt::Formatter<'_>) -> fmt::Result {
        write!(f, "kind {} attribute {}", self.kind, self.attribute)?;
        write!(f, " item {} sub {} {}", self.item, self.sub, self.unit)
    }
}

impl fmt::Display for Span {
    fn fmt(&self, f: &mut fmt::Formatter<'_>) -> fmt::Result {
        write!(f, "start {} length {}", self.start, self.length)
    }
}
