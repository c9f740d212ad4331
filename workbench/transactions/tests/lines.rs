//! The lines of random messages have the octets that the core encodes, and beside each item what it
//! carries of its variable. A field is divided here as the core divides it.
//!
//! Each run tries the same 2,000 messages. `EDD_SEED`, a number, makes other ones, and
//! `PROPTEST_CASES` is another count.

#![allow(clippy::expect_used, clippy::panic, reason = "a test fails by a panic")]

#[path = "../../edd/tests/inputs/mod.rs"]
mod inputs;
#[path = "../../edd/tests/messages/mod.rs"]
mod messages;

use edd::Image;
use edd_transactions::{Octets, Transaction};
use inputs::try_many;
use messages::{Item, REPLY, Variable, image_with, messages, values_of};

const REPLY_ALONE: Transaction = Transaction {
    command: REPLY.command,
    position: REPLY.position,
};

/// The columns before what a field carries.
const BEFORE: usize = 19;

/// What stands beside the octets of an item.
fn expected(item: &Item, variables: &[Variable]) -> String {
    let (number, mask, qualifiers) = match item {
        Item::Constant(octet) => return format!("constant {octet}"),
        Item::Variable {
            number,
            mask,
            qualifiers,
        } => (*number, *mask, qualifiers.replace(',', "")),
    };
    let variable = variables.get(number).expect("a variable");
    let (mask_text, named) = match mask {
        0 => (String::new(), u32::MAX),
        mask => (
            format!("<0x{mask:X}>"),
            mask.checked_shr(mask.trailing_zeros()).expect("a bit"),
        ),
    };
    let value = variable.value_of(variable.device & named);
    let text = match variable.type_word {
        "ENUMERATED" if value == 1 => " \"one\"",
        "BIT_ENUMERATED" if value & 1 == 1 => " \"one\"",
        _ => "",
    };
    format!("v{number}{mask_text}{qualifiers} = {value}{text}")
}

/// The octets of lines, and what stands beside them.
fn parted(lines: &str) -> (Vec<u8>, Vec<String>) {
    let (mut octets, mut beside) = (Vec::new(), Vec::new());
    for line in lines.lines() {
        let (before, item) = line.split_at_checked(BEFORE).expect("columns");
        let hex = before.get(4..).expect("a place");
        octets.extend(hex.parse::<Octets>().expect("octets").0);
        beside.push(item.to_owned());
    }
    (octets, beside)
}

/// An item whose mask has no zeros in front.
fn without_zeros(item: &str) -> String {
    match item.split_once("<0x") {
        Some((name, rest)) => format!("{name}<0x{}", rest.trim_start_matches('0')),
        None => item.to_owned(),
    }
}

fn try_lines(image: &Image, variables: &[Variable], items: &[Item]) {
    let device = values_of(image, variables, |it| it.device);
    let octets = image.encode(REPLY, &device).expect("octets");
    let lines = edd_transactions::encode(image, &device, REPLY_ALONE, "en").expect("lines");
    let (_, reply) = lines.split_once("\nreply ").expect("a reply");
    let (count, fields) = reply.split_once('\n').expect("a line");
    let is_plural = if octets.len() == 1 { "" } else { "s" };
    assert_eq!(count, format!("{} octet{is_plural}", octets.len()));
    let beside: Vec<String> = items.iter().map(|item| expected(item, variables)).collect();
    let (printed, items) = parted(fields);
    let items: Vec<String> = items.iter().map(|item| without_zeros(item)).collect();
    assert_eq!((&printed, &items), (&octets, &beside));

    let host = values_of(image, variables, |it| it.host);
    let came = edd_transactions::decode(image, &host, REPLY_ALONE, &octets, "en").expect("lines");
    let (_, came) = came.split_once("\nreply ").expect("a reply");
    assert!(came.starts_with(reply), "{came} begins with {reply}");
    let sets = image.decode(REPLY, &host, &octets).expect("sets");
    let printed = came.lines().filter(|line| line.starts_with("set "));
    assert_eq!(printed.count(), sets.len());
}

#[test]
fn the_lines_of_any_message() {
    try_many(2000, messages(), |(variables, items)| {
        try_lines(&image_with(&variables, &items), &variables, &items);
    });
}
