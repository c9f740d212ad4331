//! Compares code instruction by instruction.

use crate::description::Pair;
use edd_instructions::{Instruction, decode};

/// The pairs of instructions that differ in a number or in texts. Returns None for units that differ
/// in more.
pub(crate) fn changes(
    pair: &Pair<'_, '_>,
    old: &[u8],
    new: &[u8],
) -> Option<Vec<(Instruction, Instruction)>> {
    if old.len() != new.len() {
        return None;
    }
    let mut changes = Vec::new();
    let mut place = 0;
    while place < old.len() {
        let (first, next) = decode(old, place)?;
        let (second, other) = decode(new, place)?;
        if next != other || !pair.is_same_form(first, second) {
            return None;
        }
        if !pair.is_same_instruction(first, second) {
            changes.push((first, second));
        }
        place = next;
    }
    Some(changes)
}

/// Whether two units do the same, instruction by instruction.
pub(crate) fn is_same_code(pair: &Pair<'_, '_>, old: &[u8], new: &[u8]) -> bool {
    changes(pair, old, new).is_some_and(|changes| changes.is_empty())
}
