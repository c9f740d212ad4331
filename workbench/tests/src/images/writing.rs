//! Writes images.
//!
//! - `written`: whether the image that is written from its parts is the one that was worked out by hand.

use super::words::listed;
use super::worked::{ARRAY, LABEL, LOOP};
use crate::playing::NoAnswer;
use edd_image::{AttributeRow, Counts, NameRow, Parts, StringRow, VarKind, Version, write};
use edd_plain_std::alloc::Global;
use edd_syntax::numbers::{ArrNo, Attr, Element, ItemNo, MethNo, VarNo};
use edd_syntax::types::VarType;

/// The sections of an image. All names have one letter.
struct Sections {
    version: Version,
    variables: &'static [VarKind],
    methods: u16,
    arrays: u16,
    attributes: &'static [AttributeRow],
    elements: &'static [Element],
    code: &'static [u8],
    strings: &'static [StringRow],
    names: &'static [u8],
    texts: &'static [u8],
}

const NOTHING: Sections = Sections {
    version: Version::One,
    variables: &[],
    methods: 0,
    arrays: 0,
    attributes: &[],
    elements: &[],
    code: &[],
    strings: &[],
    names: &[],
    texts: &[],
};

/// Returns a length as an image counts it.
fn count(length: usize) -> Result<u16, NoAnswer> {
    u16::try_from(length).map_err(|_| NoAnswer::Row("sections that are too long"))
}

impl Sections {
    /// Counts what has a number.
    fn counts(&self) -> Result<Counts, NoAnswer> {
        Ok(Counts {
            variables: count(self.variables.len())?,
            commands: 0,
            menus: 0,
            collections: 0,
            methods: self.methods,
            arrays: self.arrays,
            strings: count(self.strings.len())?,
            manufacturer: 1,
            device_type: 2,
            device_revision: 3,
            dd_revision: 4,
        })
    }

    fn parts(&self) -> Result<Parts, NoAnswer> {
        let names: Vec<_> = (0..)
            .zip(self.names)
            .map(|(start, _)| NameRow { start, length: 1 })
            .collect();
        Ok(Parts {
            version: self.version,
            counts: self.counts()?,
            variables: listed(self.variables),
            names: listed(&names),
            attributes: listed(self.attributes),
            elements: listed(self.elements),
            code: listed(self.code),
            strings: listed(self.strings),
            name_bytes: listed(self.names),
            string_bytes: listed(self.texts),
        })
    }
}

const IDENTIFICATION: [u8; 56] = [
    0x45, 0x44, 0x49, 0x31, 0x00, 0x01, 0x00, 0x00, 0x00, 0x00, 0x00, 0x38, 0x00, 0x00, 0x00, 0x01,
    0x00, 0x00, 0x00, 0x02, 0x00, 0x00, 0x00, 0x03, 0x00, 0x00, 0x00, 0x04, 0x00, 0x00, 0x00, 0x00,
    0x00, 0x00, 0x00, 0x00, 0x00, 0x00, 0x00, 0x00, 0x00, 0x00, 0x00, 0x00, 0x00, 0x00, 0x00, 0x00,
    0x00, 0x00, 0x00, 0x00, 0x00, 0x00, 0x00, 0x00,
];

const ENDLESS_LOOP: Sections = Sections {
    methods: 1,
    attributes: &[AttributeRow {
        item: ItemNo::Method(MethNo(0)),
        attr: Attr::Definition,
        sub: 0,
        start: 0,
        length: 5,
    }],
    code: &[0x30, 0x00, 0x00, 0x00, 0x00],
    names: b"m",
    ..NOTHING
};

const LABELLED: Sections = Sections {
    variables: &[VarKind {
        var_type: VarType::Integer,
        size: 2,
    }],
    attributes: &[AttributeRow {
        item: ItemNo::Variable(VarNo(0)),
        attr: Attr::Label,
        sub: 0,
        start: 0,
        length: 4,
    }],
    code: &[0x40, 0x00, 0x00, 0x00],
    strings: &[StringRow {
        start: 0,
        length: 28,
    }],
    names: b"p",
    texts: &[
        0x00, 0x02, 0x65, 0x6e, 0x00, 0x00, 0x00, 0x08, 0x50, 0x72, 0x65, 0x73, 0x73, 0x75, 0x72,
        0x65, 0x02, 0x64, 0x65, 0x00, 0x00, 0x00, 0x05, 0x44, 0x72, 0x75, 0x63, 0x6b,
    ],
    ..NOTHING
};

const SMALL: VarKind = VarKind {
    var_type: VarType::Integer,
    size: 1,
};

const WITH_ARRAY: Sections = Sections {
    version: Version::Two,
    variables: &[SMALL, SMALL],
    methods: 1,
    arrays: 1,
    attributes: &[
        AttributeRow {
            item: ItemNo::Method(MethNo(0)),
            attr: Attr::Definition,
            sub: 0,
            start: 0,
            length: 13,
        },
        AttributeRow {
            item: ItemNo::Array(ArrNo(0)),
            attr: Attr::Elements,
            sub: 0,
            start: 13,
            length: 23,
        },
    ],
    elements: &[
        Element {
            array: ArrNo(0),
            number: 1,
            var: VarNo(0),
        },
        Element {
            array: ArrNo(0),
            number: 5,
            var: VarNo(1),
        },
    ],
    code: &[
        0x01, 0x00, 0x00, 0x00, 0x05, 0x08, 0x00, 0x00, 0x03, 0x00, 0x00, 0x06, 0x00, 0x48, 0x00,
        0x00, 0x00, 0x01, 0x00, 0x00, 0xff, 0xff, 0xff, 0xff, 0x48, 0x00, 0x00, 0x00, 0x05, 0x00,
        0x01, 0xff, 0xff, 0xff, 0xff, 0x00,
    ],
    names: b"xyma",
    ..NOTHING
};

pub fn written(name: &str) -> Result<String, NoAnswer> {
    let (sections, wanted): (Sections, &[u8]) = match name {
        "nothing" => (NOTHING, &IDENTIFICATION),
        "loop" => (ENDLESS_LOOP, &LOOP),
        "label" => (LABELLED, &LABEL),
        "array" => (WITH_ARRAY, &ARRAY),
        _ => return Err(NoAnswer::Row("no such sections")),
    };
    Ok(match write(Global, &sections.parts()?) {
        Ok(image) if image.as_slice() == wanted => "as worked out".to_owned(),
        Ok(image) => format!("{image:?}"),
        Err(_) => "not written".to_owned(),
    })
}
