//! Compiles the items below an identification.
//!
//! - `units`: the numbers of the identification and the count of items, or the error.
//! - `rows`: the rows of the attributes, in order.
//! - `elements`: the version of the image, and each element as array, number and variable.
//! - `steps`: steps on the image, as in `images/steps.rs`.

use crate::images::steps_on;
use crate::playing::NoAnswer;
use edd_compiler::{checked_of, compile, unit_of};
use edd_plain_std::alloc::Global;
use edd_syntax::checked::Checked;
use edd_syntax::numbers::AttrRef;
use edd_syntax::unit::Unit;

const HEAD: &str = "MANUFACTURER 1, DEVICE_TYPE 2, DEVICE_REVISION 3, DD_REVISION 4\n";

/// Returns the text of a description of these items.
fn text_of(items: &str) -> String {
    format!("{HEAD}{items}")
}

/// Returns the description of these items, unless it is refused.
pub fn described(items: &str) -> Result<Checked, NoAnswer> {
    let checked = checked_of(Global, text_of(items).as_bytes());
    checked.map_err(|_| NoAnswer::Row("items that are refused"))
}

fn summary(unit: &Unit) -> String {
    let of = unit.identification;
    let (maker, device) = (of.manufacturer, of.device_type);
    let (revision, dd) = (of.device_revision, of.dd_revision);
    format!(
        "{maker} {device} {revision} {dd}, items {}",
        unit.items.len()
    )
}

pub fn unit(items: &str) -> Result<String, NoAnswer> {
    let text = text_of(items);
    match unit_of(Global, text.as_bytes()) {
        Ok(unit) => Ok(summary(&unit)),
        Err(fault) => Ok(fault.refusal(Global, text.as_bytes())?.to_string()),
    }
}

/// Writes a row as a step names it.
fn row_text(row: AttrRef) -> String {
    let (attribute, kind) = (row.attr.word(), row.item.kind().word());
    format!("{attribute} {} of {kind} {}", row.sub, row.item.index())
}

pub fn rows(items: &str) -> Result<String, NoAnswer> {
    let rows = described(items)?.rows(Global)?;
    Ok(rows
        .into_iter()
        .map(row_text)
        .collect::<Vec<_>>()
        .join("\n"))
}

pub fn elements(items: &str) -> Result<String, NoAnswer> {
    let checked = described(items)?;
    let mut parts = vec![format!("version {}", checked.version())];
    for element in checked.elements(Global)? {
        let (array, number, variable) = (element.array.0, element.number, element.var.0);
        parts.push(format!("{array} {number} {variable}"));
    }
    Ok(parts.join("; "))
}

pub fn steps(items: &str, steps: &str) -> Result<String, NoAnswer> {
    let text = text_of(items);
    match compile(Global, text.as_bytes()) {
        Ok(bytes) => steps_on(&bytes, steps),
        Err(fault) => Ok(fault.refusal(Global, text.as_bytes())?.to_string()),
    }
}
