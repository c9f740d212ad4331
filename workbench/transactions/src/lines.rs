//! The lines of messages: a heading, and for each field its place, its octets and what they carry.

use crate::TransactionFault;
use crate::items::{Layout, Notation};
use crate::octets::to_hex;
use crate::transaction::{Transaction, command_number};
use crate::values::Page;
use edd::{Carried, Image, MessageField, MessagePart, Side, Values};
use std::fmt::Write;

/// The columns of the octets of a field, which are at most four.
const OCTETS: usize = 11;

/// The lines of a transaction's request and reply under the values of the device that sends them.
///
/// # Errors
///
/// An expression that decides what a message carries traps.
pub fn encode(
    image: &Image,
    values: &Values,
    transaction: Transaction,
    language: &str,
) -> Result<String, TransactionFault> {
    let page = Page {
        image,
        values,
        language,
    };
    let mut lines = heading(&page, transaction);
    for side in [Side::Request, Side::Reply] {
        let octets = image.encode(transaction.message(side), values);
        let octets = octets.map_err(|fault| TransactionFault::of_message(side, fault))?;
        let layout = Layout::of_message(image, values, transaction, side)?;
        push_message(&mut lines, &page, side, &layout, &octets);
    }
    Ok(lines)
}

/// The lines of a reply that came to a host with these values, and below them a line for each
/// variable that it sets.
///
/// # Errors
///
/// The octets are not those of the reply, or an expression that decides what it carries traps.
pub fn decode(
    image: &Image,
    values: &Values,
    transaction: Transaction,
    octets: &[u8],
    language: &str,
) -> Result<String, TransactionFault> {
    let layout = Layout::of_message(image, values, transaction, Side::Reply)?;
    let sets = image.decode(transaction.message(Side::Reply), values, octets);
    let sets = sets
        .map_err(|fault| TransactionFault::of_reply(image, fault, octets.len(), layout.length()))?;
    let mut after = values.clone();
    for (variable, value) in &sets {
        // What is decoded is in range, so it is set.
        let _ = after.set(*variable, *value);
    }
    let page = Page {
        image,
        values: &after,
        language,
    };
    let mut lines = heading(&page, transaction);
    push_message(&mut lines, &page, Side::Reply, &layout, octets);
    for (variable, value) in sets {
        let (name, value) = (page.name(variable), page.value(variable, value));
        push_line(&mut lines, format_args!("set {name} = {value}"));
    }
    Ok(lines)
}

/// The line that says which transaction it is.
fn heading(page: &Page<'_>, transaction: Transaction) -> String {
    let Page { image, values, .. } = *page;
    let item = image.item(edd::ItemNo::Command(transaction.command));
    let mut line = format!("command {}", item.map_or("", |item| item.name));
    if let Some(number) = command_number(image, values, transaction.command) {
        let _ = write!(line, " {number}");
    }
    line.push_str(" transaction");
    if let Some(number) = transaction.number(image, values) {
        let _ = write!(line, " {number}");
    }
    line.push('\n');
    line
}

fn push_message(lines: &mut String, page: &Page<'_>, side: Side, layout: &Layout, octets: &[u8]) {
    let word = match side {
        Side::Request => "request",
        Side::Reply => "reply",
    };
    let count = octets.len();
    let noun = if count == 1 { "octet" } else { "octets" };
    push_line(lines, format_args!("{word} {count} {noun}"));
    let (mut place, mut left) = (0usize, octets);
    let mut notations = layout.notations.iter().copied();
    for field in &layout.fields {
        let Some((front, rest)) = left.split_at_checked(field.width) else {
            return;
        };
        push_field(lines, page, field, &mut notations, place, front);
        place = place.saturating_add(front.len());
        left = rest;
    }
}

/// The lines of a field, whose parts have the next notations.
fn push_field(
    lines: &mut String,
    page: &Page<'_>,
    field: &MessageField,
    notations: &mut impl Iterator<Item = Notation>,
    place: usize,
    octets: &[u8],
) {
    let octets_text = to_hex(octets);
    let mut before = format!("{place:>4}  {octets_text:<OCTETS$}  ");
    match &field.carries {
        Carried::Constant(octet) => push_line(lines, format_args!("{before}constant {octet}")),
        Carried::Variables(parts) => {
            let Some(number) = field.number_in(octets) else {
                return;
            };
            for (part, notation) in parts.iter().zip(notations) {
                let item = item_text(page, part, notation, octets.len());
                let value = page.value_of(part.variable, part.bits_in(number));
                let value = page.value(part.variable, value);
                push_line(lines, format_args!("{before}{item} = {value}"));
                // Further parts of a field stand below its first one.
                before = " ".repeat(before.len());
            }
        }
    }
}

/// An item as `show` has it, but with its mask in two hexadecimal digits for each octet of the field.
fn item_text(page: &Page<'_>, part: &MessagePart, notation: Notation, width: usize) -> String {
    let mut text = page.name(part.variable).to_owned();
    if notation.has_mask {
        let digits = width.saturating_mul(2);
        let _ = write!(text, "<0x{:0digits$X}>", part.mask);
    }
    text.push_str(notation.qualifiers());
    text
}

fn push_line(lines: &mut String, line: std::fmt::Arguments<'_>) {
    // Writing to a `String` does not fail.
    let _ = writeln!(lines, "{line}");
}
