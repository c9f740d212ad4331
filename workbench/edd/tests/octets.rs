//! What a device encodes, a host decodes: the bits that the message names are the device's then, and
//! all others the host's. And octets are those that a second reading of docs/OCTETS.md makes and takes
//! apart.
//!
//! Each test tries the same 5,000 messages at each run. `EDD_SEED`, a number, makes other ones, and
//! `PROPTEST_CASES` is another count.

#![allow(
    clippy::arithmetic_side_effects,
    clippy::as_conversions,
    clippy::expect_used,
    clippy::indexing_slicing,
    clippy::panic,
    reason = "a test fails by a panic"
)]

mod for_c;
mod inputs;
mod messages;

use edd::{Image, OctetsFault, Values, VarNo};
use inputs::try_many;
use messages::{Item, REPLY, Variable, image_with, messages, values_of};
use proptest::collection::vec;
use proptest::prelude::*;

/// What the host has to have when it has taken the reply.
fn expected(image: &Image, variables: &[Variable], items: &[Item]) -> Values {
    let numbered = variables.iter().enumerate();
    let numbers = numbered.map(|(number, variable)| {
        let named = items
            .iter()
            .fold(0, |named, item| named | item.kept(number, *variable));
        variable.value_of(variable.host & !named | variable.device & named)
    });
    Values::new(image, &numbers.collect::<Vec<_>>()).expect("values")
}

fn try_message(variables: &[Variable], items: &[Item]) {
    let image = image_with(variables, items);
    let device = values_of(&image, variables, |it| it.device);
    let mut host = values_of(&image, variables, |it| it.host);
    let octets = image.encode(REPLY, &device).expect("octets");
    let sets = image.decode(REPLY, &host, &octets).expect("sets");

    let longer = [&octets[..], &[0]].concat();
    let too_long = Err(OctetsFault::TooLong);
    assert_eq!(image.decode(REPLY, &host, &longer), too_long);
    if let [shorter @ .., _] = &octets[..] {
        let too_short = Err(OctetsFault::TooShort);
        assert_eq!(image.decode(REPLY, &host, shorter), too_short);
    }

    for (variable, value) in &sets {
        host.set(*variable, *value).expect("a value in range");
    }
    assert_eq!(host, expected(&image, variables, items));
    let is_kept = |number: usize| {
        items
            .iter()
            .any(|it| it.kept(number, variables[number]) != 0)
    };
    for number in 0..variables.len() {
        let variable = VarNo(u16::try_from(number).expect("few variables"));
        let is_set = sets.iter().any(|(set, _)| *set == variable);
        assert_eq!(is_set, is_kept(number), "v{number}");
        let is_read = image.readers(variable, &device) == Ok(vec![REPLY]);
        assert_eq!(is_read, is_kept(number), "v{number}");
    }
}

#[test]
fn there_and_back() {
    try_many(5000, messages(), |(variables, items)| {
        try_message(&variables, &items);
    });
}

/// An item with the octets of its field: the first of them, and how many they are.
type Placed = (Item, usize, usize);

/// The fields of a message, by the page.
#[derive(Default)]
struct Fields {
    placed: Vec<Placed>,
    open: Vec<(Item, u32)>,
    length: usize,
}

impl Fields {
    fn of(variables: &[Variable], items: &[Item]) -> Fields {
        let mut fields = Fields::default();
        for item in items {
            match *item {
                Item::Constant(_) => fields.add_alone(*item, 0xFF),
                Item::Variable {
                    number, mask: 0, ..
                } => fields.add_alone(*item, variables[number].all_bits()),
                Item::Variable { mask, .. } => fields.add_masked(*item, mask),
            }
        }
        fields.end();
        fields
    }

    fn add_alone(&mut self, item: Item, bits: u32) {
        self.end();
        self.open.push((item, bits));
        self.end();
    }

    fn add_masked(&mut self, item: Item, mask: u32) {
        if self.open.iter().any(|(_, earlier)| earlier & mask != 0) {
            self.end();
        }
        self.open.push((item, mask));
        if mask & 1 == 1 {
            self.end();
        }
    }

    fn end(&mut self) {
        let bits = self.open.iter().map(|(_, mask)| 32 - mask.leading_zeros());
        let width = bits.max().map_or(0, |bits| bits.div_ceil(8) as usize);
        let place = self.length;
        let open = std::mem::take(&mut self.open);
        self.placed
            .extend(open.iter().map(|it| (it.0, place, width)));
        self.length += width;
    }
}

/// The lowest bit of an item in its field, and which bits of its variable it names.
fn naming(variables: &[Variable], number: usize, mask: u32) -> (u32, u32) {
    match mask {
        0 => (0, variables[number].all_bits()),
        mask => (mask.trailing_zeros(), mask >> mask.trailing_zeros()),
    }
}

/// The octets that the device sends, by the page.
fn sent(variables: &[Variable], fields: &Fields) -> Vec<u8> {
    let mut octets = vec![0; fields.length];
    for (item, place, width) in &fields.placed {
        let number = match *item {
            Item::Constant(octet) => octet.into(),
            Item::Variable { number, mask, .. } => {
                let (lowest, named) = naming(variables, number, mask);
                let variable = variables[number];
                (variable.device & variable.all_bits() & named) << lowest
            }
        };
        for (octet, own) in octets[*place..place + width]
            .iter_mut()
            .rev()
            .zip(number.to_le_bytes())
        {
            *octet |= own;
        }
    }
    octets
}

/// What the host takes from octets, by the page.
fn taken(
    variables: &[Variable],
    fields: &Fields,
    octets: &[u8],
) -> Result<Vec<(VarNo, i64)>, OctetsFault> {
    for (item, place, _) in &fields.placed {
        match item {
            Item::Constant(octet) if octets[*place] != *octet => {
                return Err(OctetsFault::WrongConstant(*place));
            }
            _ => {}
        }
    }
    let mut host: Vec<u32> = variables.iter().map(|it| it.host & it.all_bits()).collect();
    let mut sets = Vec::new();
    for (item, place, width) in &fields.placed {
        let Item::Variable {
            number,
            mask,
            qualifiers,
        } = *item
        else {
            continue;
        };
        if qualifiers.contains("INFO") {
            continue;
        }
        let came = octets[*place..place + width].iter();
        let came = came.fold(0, |came, octet| came * 256 + u64::from(*octet));
        let (lowest, named) = naming(variables, number, mask);
        let bits = (came >> lowest) as u32 & named;
        let variable = VarNo(u16::try_from(number).expect("few variables"));
        if bits & !variables[number].all_bits() != 0 {
            return Err(OctetsFault::OutOfType(variable));
        }
        host[number] = host[number] & !named | bits;
        sets.push((variable, variables[number].value_of(host[number])));
    }
    Ok(sets)
}

/// Tries the octets that the device sends, any octets, and any with the right constants.
fn try_octets(variables: &[Variable], items: &[Item], noise: &[u8]) {
    let image = image_with(variables, items);
    let device = values_of(&image, variables, |it| it.device);
    let host = values_of(&image, variables, |it| it.host);
    let fields = Fields::of(variables, items);
    let encoded = sent(variables, &fields);
    assert_eq!(image.encode(REPLY, &device), Ok(encoded.clone()));

    let length = encoded.len();
    let noise: Vec<u8> = noise.iter().copied().cycle().take(length).collect();
    let mut with_constants = noise.clone();
    for (item, place, _) in &fields.placed {
        if let Item::Constant(octet) = item {
            with_constants[*place] = *octet;
        }
    }
    for octets in [encoded, noise, with_constants] {
        let expected = taken(variables, &fields, &octets);
        assert_eq!(image.decode(REPLY, &host, &octets), expected);
    }
}

#[test]
fn a_second_reading_of_the_page() {
    let noise = vec(any::<u8>(), 1..24);
    try_many(5000, (messages(), noise), |((variables, items), noise)| {
        try_octets(&variables, &items, &noise);
    });
}
