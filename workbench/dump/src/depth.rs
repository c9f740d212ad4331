//! The depth of the stack in a unit that may break the rules.

use edd_instructions::decode;
use std::collections::HashMap;

/// The number of operands that the previous instruction leaves at a place. If that one never goes on,
/// it is the number that the first jump to the place leaves, or else 0. Underflow is ignored.
pub(crate) fn depth_at(code: &[u8], place: usize) -> u8 {
    let mut by_jump = HashMap::new();
    let mut brought = Some(0);
    let mut here = 0;
    while here < place {
        let Some((instruction, next)) = decode(code, here) else {
            break;
        };
        let depth: u8 = brought.or(by_jump.get(&here).copied()).unwrap_or(0);
        let rest = depth.saturating_sub(instruction.takes());
        if let Some(way) = instruction.jump() {
            by_jump.entry(way.to).or_insert(rest);
        }
        let onward = instruction.onward(next);
        brought = onward.map(|way| rest.saturating_add(way.leaves));
        here = next;
    }
    brought.or(by_jump.get(&place).copied()).unwrap_or(0)
}
