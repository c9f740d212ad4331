//! What a message carries twice, and masks that its variables do not have.

use crate::context::Context;
use crate::instrument::{Variable, variable_of};
use crate::kind::CommandKind;
use crate::lists::{Listed, values_of};
use crate::range::Range;
use crate::source::{TokenIndex, index};
use crate::warning::Findings;
use edd_syntax::cond::Cond;
use edd_syntax::item::{DataItem, TransactionPart};
use edd_syntax::reference::Target;
use edd_syntax::types::VarType;
use std::collections::{BTreeMap, HashMap};

/// What a list has of a variable so far.
#[derive(Clone, Copy)]
struct Carried {
    at: TokenIndex,
    bits: u32,
    /// Whether it is there without a mask, and not for information alone.
    is_whole: bool,
}

/// A variable of a message.
struct Carrying {
    at: TokenIndex,
    variable: u16,
    mask: Option<u32>,
    is_info: bool,
}

impl Carrying {
    fn of(item: &DataItem<Target>) -> Option<Carrying> {
        match item {
            DataItem::Variable {
                at,
                variable,
                mask,
                qualifiers,
            } => Some(Carrying {
                at: index(*at),
                variable: variable_of(*variable)?,
                mask: *mask,
                is_info: qualifiers.info,
            }),
            DataItem::Constant { .. } => None,
        }
    }

    fn is_whole(&self) -> bool {
        self.mask.is_none() && !self.is_info
    }

    // Whether the second value replaces the first.
    fn is_twice(&self, before: Carried) -> bool {
        if before.is_whole {
            !self.is_info
        } else {
            self.is_whole() && before.bits != 0
        }
    }

    fn check_mask(&self, bits: u32, range: Option<Range>, findings: &mut Findings<'_>) {
        let (Some(mask), Some(range)) = (self.mask, range) else {
            return;
        };
        if range.width() < i64::from(mask) {
            findings.add(self.at, CommandKind::WideMask(mask, range.width()));
        }
        if mask & bits != 0 {
            findings.add(self.at, CommandKind::OverlappingMask);
        }
    }
}

// The masks of a variable in a list, together.
#[derive(Clone, Copy)]
struct Masked {
    at: TokenIndex,
    bits: u32,
    is_whole: bool,
}

// Variables of enumerators of which all masks together have too few bits.
fn check_widths(
    listed: &[Listed<'_, DataItem<Target>>],
    context: &Context<'_>,
    findings: &mut Findings<'_>,
) {
    let mut masks: BTreeMap<(u16, usize), Masked> = BTreeMap::new();
    for item in listed
        .iter()
        .filter_map(|one| Some((one.list, Carrying::of(one.value)?)))
    {
        let (list, item) = item;
        let known = masks.entry((item.variable, list)).or_insert(Masked {
            at: item.at,
            bits: 0,
            is_whole: false,
        });
        known.bits |= item.mask.unwrap_or(0);
        known.is_whole |= item.mask.is_none();
    }
    for ((number, _), masked) in masks {
        let variable = context.instrument.variable(number);
        let is_enumerated = |one: &&Variable<'_>| one.kind == Some(VarType::Enumerated);
        let Some(variable) = variable.filter(is_enumerated).filter(|_| !masked.is_whole) else {
            continue;
        };
        let count = variable.enumerators.len();
        let room = 1_usize.checked_shl(masked.bits.count_ones());
        if room.is_some_and(|room| room < count) {
            let name = variable.name().to_owned();
            findings.add(masked.at, CommandKind::NarrowMask(masked.bits, count, name));
        }
    }
}

// Masks of two variables that follow each other: each has bits of the other one and bits that it has not,
// so that they neither share an octet nor fill one each.
fn check_crossing(
    listed: &[Listed<'_, DataItem<Target>>],
    context: &Context<'_>,
    findings: &mut Findings<'_>,
) {
    for pair in listed.windows(2) {
        let [one, other] = pair else {
            continue;
        };
        let (Some(one), Some(other)) = (Carrying::of(one.value), Carrying::of(other.value)) else {
            continue;
        };
        let (Some(first), Some(second)) = (one.mask, other.mask) else {
            continue;
        };
        let is_crossing = first & second != 0 && first & !second != 0 && second & !first != 0;
        if is_crossing && one.variable != other.variable {
            let name = context.instrument.name_of(one.variable);
            findings.add_beside(other.at, CommandKind::CrossingMasks(name), one.at);
        }
    }
}

fn check_message(
    items: &[Cond<Target, DataItem<Target>>],
    is_reply: bool,
    context: &Context<'_>,
    findings: &mut Findings<'_>,
) {
    let mut carried: HashMap<(usize, u16), Carried> = HashMap::new();
    let all = values_of(items);
    let has_mask = |one: &Listed<'_, DataItem<Target>>| {
        matches!(one.value, DataItem::Variable { mask: Some(_), .. })
    };
    if all.iter().any(has_mask) {
        check_widths(&all, context, findings);
        check_crossing(&all, context, findings);
    }
    for listed in all {
        let Some(item) = Carrying::of(listed.value) else {
            continue;
        };
        let key = (listed.list, item.variable);
        let before = carried.get(&key).copied();
        let bits = before.map_or(0, |before| before.bits);
        item.check_mask(bits, context.instrument.range(item.variable), findings);
        if let Some(before) = before.filter(|before| is_reply && item.is_twice(*before)) {
            let name = context.instrument.name_of(item.variable);
            findings.add_beside(item.at, CommandKind::RepeatedDataItem(name), before.at);
        }
        let now = Carried {
            at: item.at,
            bits: bits | item.mask.unwrap_or(0),
            is_whole: item.is_whole() || before.is_some_and(|before| before.is_whole),
        };
        carried.insert(key, now);
    }
}

/// Checks the messages of a transaction.
pub(crate) fn check_messages(
    parts: &[TransactionPart<Target>],
    context: &Context<'_>,
    findings: &mut Findings<'_>,
) {
    for part in parts {
        match part {
            TransactionPart::Request(_, items) => check_message(items, false, context, findings),
            TransactionPart::Reply(_, items) => check_message(items, true, context, findings),
        }
    }
}
