//! Random messages: what the reply of a command carries, and what a device and a host have.
#![allow(dead_code, reason = "each test uses a part of it")]

use edd::{CmdNo, Image, Message, Side, Values};
use proptest::collection::vec;
use proptest::prelude::*;

/// What each source begins with.
const IDENTIFICATION: &str = "MANUFACTURER 1, DEVICE_TYPE 2, DEVICE_REVISION 3, DD_REVISION 4\n";

/// The reply of the one command.
pub(crate) const REPLY: Message = Message {
    command: CmdNo(0),
    position: 0,
    side: Side::Reply,
};

/// The least and the most variables of a description.
const VARIABLES: std::ops::Range<usize> = 1..5;

const TYPES: [&str; 4] = [
    "INTEGER",
    "UNSIGNED_INTEGER",
    "ENUMERATED",
    "BIT_ENUMERATED",
];

const QUALIFIERS: [&str; 6] = ["", "", "", "(INFO)", "(INDEX)", "(INFO, INDEX)"];

/// Bits of the least and the greatest value of each size, and of those near 0.
const ENDS: [u32; 7] = [0, 1, 0x80, 0x8000, 0x0080_0000, 0x8000_0000, u32::MAX];

/// Masks as makers write them.
const WRITTEN: [u32; 13] = [
    0x01,
    0x02,
    0x03,
    0x04,
    0x0C,
    0x0F,
    0xF0,
    0x80,
    0xFF,
    0x100,
    0xF00,
    0xFF00,
    0x00FF_0000,
];

#[derive(Clone, Copy, Debug)]
pub(crate) struct Variable {
    pub(crate) type_word: &'static str,
    pub(crate) size: u32,
    /// What the device has, of which the low bits count.
    pub(crate) device: u32,
    /// What the host has.
    pub(crate) host: u32,
}

#[derive(Clone, Copy, Debug)]
pub(crate) enum Item {
    Constant(u8),
    Variable {
        number: usize,
        /// 0 where there is none.
        mask: u32,
        qualifiers: &'static str,
    },
}

impl Variable {
    pub(crate) fn all_bits(self) -> u32 {
        u32::MAX >> (32u32.saturating_sub(self.size.saturating_mul(8)))
    }

    /// The value that these bits are.
    pub(crate) fn value_of(self, bits: u32) -> i64 {
        let unsigned = i64::from(bits & self.all_bits());
        let half = i64::from(self.all_bits() / 2);
        if self.type_word == "INTEGER" && unsigned > half {
            unsigned
                .saturating_sub(i64::from(self.all_bits()))
                .saturating_sub(1)
        } else {
            unsigned
        }
    }

    fn declaration(self, number: usize) -> String {
        let Variable {
            type_word, size, ..
        } = self;
        let values = if type_word.ends_with("ENUMERATED") {
            " { { 1, \"one\" } }"
        } else {
            ";"
        };
        format!("VARIABLE v{number} {{ TYPE {type_word} ({size}){values} }}\n")
    }
}

impl Item {
    fn text(self) -> String {
        match self {
            Item::Constant(octet) => octet.to_string(),
            Item::Variable {
                number,
                mask: 0,
                qualifiers,
            } => format!("v{number} {qualifiers}"),
            Item::Variable {
                number,
                mask,
                qualifiers,
            } => format!("v{number} <{mask}> {qualifiers}"),
        }
    }

    /// The bits of a variable that the receiver keeps of this item.
    pub(crate) fn kept(self, number: usize, variable: Variable) -> u32 {
        match self {
            Item::Variable {
                number: own,
                mask,
                qualifiers,
            } if own == number && !qualifiers.contains("INFO") => match mask {
                0 => variable.all_bits(),
                _ => mask >> mask.trailing_zeros(),
            },
            _ => 0,
        }
    }
}

fn variables() -> impl Strategy<Value = Vec<Variable>> {
    let type_word = prop::sample::select(&TYPES[..]);
    let variable = (type_word, 1..5u32, bits(), bits());
    let variable = variable.prop_map(|(type_word, size, device, host)| Variable {
        type_word,
        size,
        device,
        host,
    });
    vec(variable, VARIABLES)
}

fn bits() -> impl Strategy<Value = u32> {
    prop_oneof![3 => any::<u32>(), 1 => prop::sample::select(&ENDS[..])]
}

fn masks() -> impl Strategy<Value = u32> {
    prop_oneof![
        2 => Just(0),
        3 => prop::sample::select(&WRITTEN[..]),
        1 => 1..256u32,
        1 => any::<u32>(),
    ]
}

fn items() -> impl Strategy<Value = Vec<Item>> {
    let qualifiers = prop::sample::select(&QUALIFIERS[..]);
    let of_variable = (0..VARIABLES.end, masks(), qualifiers);
    let of_variable = of_variable.prop_map(|(number, mask, qualifiers)| Item::Variable {
        number,
        mask,
        qualifiers,
    });
    let item = prop_oneof![6 => of_variable, 1 => any::<u8>().prop_map(Item::Constant)];
    vec(item, 0..9)
}

/// The image of a description whose one command has a reply of these items.
pub(crate) fn image_with(variables: &[Variable], items: &[Item]) -> Image {
    let declared = variables.iter().enumerate();
    let declared: String = declared
        .map(|(number, it)| it.declaration(number))
        .collect();
    let items: Vec<String> = items.iter().map(|item| item.text()).collect();
    let source = format!(
        "{IDENTIFICATION}{declared}COMMAND c {{ NUMBER 1; OPERATION READ; TRANSACTION {{ REPLY {{ {} }} }} }}",
        items.join(", ")
    );
    edd::compile(source.as_bytes()).expect("an image")
}

/// Variables, and items of a reply that carry them.
pub(crate) fn messages() -> impl Strategy<Value = (Vec<Variable>, Vec<Item>)> {
    (variables(), items()).prop_map(|(variables, mut items)| {
        for item in &mut items {
            if let Item::Variable { number, .. } = item {
                *number = number.checked_rem(variables.len()).unwrap_or_default();
            }
        }
        (variables, items)
    })
}

/// The values that these bits of the variables are.
pub(crate) fn values_of(
    image: &Image,
    variables: &[Variable],
    bits: impl Fn(&Variable) -> u32,
) -> Values {
    let numbers: Vec<i64> = variables.iter().map(|it| it.value_of(bits(it))).collect();
    Values::new(image, &numbers).expect("values")
}
