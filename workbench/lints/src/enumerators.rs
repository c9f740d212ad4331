//! Enumerators that the variable can't hold, that are no bit, or that one list has twice.

use crate::context::Context;
use crate::kind::{NumberRole, VariableKind};
use crate::lists::enumerators_of;
use crate::range::Range;
use crate::repeats::{Numbered, Numbers};
use crate::source::{TokenIndex, index};
use crate::types::check_range;
use crate::warning::Findings;
use edd_lexer::token::TokenKind;
use edd_syntax::item::{Enumerator, TypePart};
use edd_syntax::operators::Operator;
use edd_syntax::reference::Target;
use edd_syntax::symbols::Symbol;
use edd_syntax::types::VarType;
use std::collections::HashMap;

/// The token of the number of an enumerator, behind its brace and its sign.
pub(crate) fn number_at(enumerator: &Enumerator, context: &Context<'_>) -> TokenIndex {
    let behind = index(enumerator.at).saturating_add(1);
    let minus = TokenKind::Symbol(Symbol::Operator(Operator::Subtract));
    if context.source.kind(behind) == Some(minus) {
        behind.saturating_add(1)
    } else {
        behind
    }
}

// An enumerator of a BIT_ENUMERATED names one bit.
fn check_bit(number: i64, at: TokenIndex, findings: &mut Findings<'_>) {
    match u32::try_from(number).map(u32::count_ones) {
        Ok(0) => findings.add(at, VariableKind::NoBit),
        Ok(1) | Err(_) => {}
        Ok(bits) => findings.add(at, VariableKind::SeveralBits(number, bits)),
    }
}

/// Checks the enumerators of a type.
pub(crate) fn check_enumerators(
    parts: &[TypePart<Target>],
    range: Range,
    kind: VarType,
    context: &Context<'_>,
    findings: &mut Findings<'_>,
) {
    let mut lists = HashMap::new();
    for listed in enumerators_of(parts) {
        let number = listed.value.value;
        let at = number_at(listed.value, context);
        check_range(range, NumberRole::Enumerator, number, at, findings);
        if kind == VarType::BitEnumerated {
            check_bit(number, at, findings);
        }
        let list = lists.entry(listed.list);
        let list = list.or_insert_with(|| Numbers::new(Numbered::Enumerator));
        list.add(number, at, findings);
    }
}
