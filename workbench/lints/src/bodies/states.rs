//! Methods whose names say the opposite of what they set.

use crate::context::Context;
use crate::expressions::calls::target_of_argument;
use crate::instrument::variable_of;
use crate::kind::MethodKind;
use crate::source::TokenIndex;
use crate::texts::variants::Variants;
use crate::traits::quoted;
use crate::visit::{Visitor, visit_parts};
use crate::warning::Findings;
use crate::words::words_of;
use edd_constants::evaluate;
use edd_instructions::Sort;
use edd_syntax::cond::Cond;
use edd_syntax::expr::Expr;
use edd_syntax::item::{Attribute, Item};
use edd_syntax::numbers::TextAttribute;
use edd_syntax::reference::Target;
use edd_syntax::stmt::Part;
use std::collections::BTreeMap;

/// Words that say the opposite of each other.
const STATES: [[&str; 2]; 9] = [
    ["on", "off"],
    ["start", "stop"],
    ["started", "stopped"],
    ["open", "closed"],
    ["open", "close"],
    ["enable", "disable"],
    ["enabled", "disabled"],
    ["lock", "unlock"],
    ["locked", "unlocked"],
];

// Whether one of some words is a word of a state.
fn has(words: &[&str], state: &str) -> bool {
    words.iter().any(|word| word.eq_ignore_ascii_case(state))
}

// The words of the name and the LABEL of a method.
fn named(method: &Item<Target>) -> Vec<&str> {
    let mut words: Vec<_> = words_of(method.name()).collect();
    for attribute in &method.attributes {
        if let Attribute::OneText(_, TextAttribute::Label, Cond::Value(text)) = attribute
            && let Some(first) = quoted(text).and_then(|text| Variants::of(text.as_bytes()).next())
        {
            words.extend(words_of(str::from_utf8(first.words).unwrap_or_default()));
        }
    }
    words
}

/// A number that a variable is set to, by an assignment.
type Set<'c> = (i64, &'c Expr<Target>);

/// What a body sets variables to, where these are constants.
#[derive(Default)]
struct Sets<'c> {
    /// The first number of each variable, with its place; nothing where there are others.
    numbers: BTreeMap<u16, Option<Set<'c>>>,
}

impl<'t> Visitor<'t> for Sets<'t> {
    fn expression(&mut self, e: &'t Expr<Target>, _: Sort) {
        let (to, number) = match e {
            Expr::Assign(to, value) => (Some(*to), evaluate(value, Sort::Method).number()),
            Expr::CompoundAssign(_, to, _) | Expr::Increment(_, to) => (Some(*to), None),
            Expr::Call { arguments, .. } => (
                target_of_argument(arguments, 0).or(target_of_argument(arguments, 1)),
                None,
            ),
            _ => return,
        };
        let Some(variable) = to.and_then(variable_of) else {
            return;
        };
        let new = number.map(|number| (number, e));
        let known = self.numbers.entry(variable).or_insert(new);
        if known.map(|(number, _)| number) != number {
            *known = None;
        }
    }
}

// The word of a method that a state says the opposite of.
fn opposed(words: &[&str], state: &str) -> Option<&'static str> {
    let state: Vec<_> = words_of(state).collect();
    STATES.iter().find_map(|[one, other]| {
        let is_opposed = |says: &'static str, against: &str| {
            let is_said = has(words, says) && !has(words, against);
            (is_said && has(&state, against) && !has(&state, says)).then_some(says)
        };
        is_opposed(one, other).or_else(|| is_opposed(other, one))
    })
}

/// Checks what a method sets against its name.
pub(super) fn check_states(
    method: &Item<Target>,
    parts: &[Part<Target>],
    context: &Context<'_>,
    findings: &mut Findings<'_>,
) {
    let words = named(method);
    let mut pairs = STATES.iter().flatten();
    if !pairs.any(|state| has(&words, state)) {
        return;
    }
    let mut sets = Sets::default();
    visit_parts(parts, &mut sets);
    for (variable, set) in sets.numbers {
        let known = context.instrument.variable(variable);
        let (Some(variable), Some((number, e))) = (known, set) else {
            continue;
        };
        let Some(state) = variable.words_of(number) else {
            continue;
        };
        if let Some(says) = opposed(&words, state) {
            let at: TokenIndex = context.places.sign(e);
            let kind = MethodKind::OppositeState(says.to_owned(), state.to_owned());
            findings.add(at, kind);
        }
    }
}
