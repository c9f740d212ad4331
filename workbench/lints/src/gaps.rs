//! Conditionals that leave something out: an ELSE without which they say nothing, a case of an
//! enumerator, or all that their condition is for.

use crate::context::Context;
use crate::expressions::operands::selected_variable;
use crate::kind::ConditionKind;
use crate::source::TokenIndex;
use crate::visit::{Conditionals, Value, Visitor, conditionals_of, visit_conditionals_of};
use crate::warning::Findings;
use edd_syntax::cond::{Arm, Cond};
use edd_syntax::item::{Attribute, Item};
use edd_syntax::numbers::TextAttribute;
use edd_syntax::reference::Target;
use edd_syntax::types::{Handling, VarType};
use std::collections::HashSet;

/// What a conditional gives in its branches.
#[derive(Default)]
struct Branches {
    /// Whether all that is written is what holds where nothing is given.
    are_usual: bool,
    /// Whether a branch gives nothing.
    has_gap: bool,
}

impl Branches {
    fn of<V>(c: &Cond<Target, V>, is_usual: &impl Fn(&V) -> bool) -> Branches {
        match c {
            Cond::Value(value) => Branches {
                are_usual: is_usual(value),
                has_gap: false,
            },
            Cond::If {
                first, otherwise, ..
            } => Branches::of_all([&**first, &**otherwise].into_iter(), is_usual),
            Cond::Select { arms, .. } => {
                let bodies = arms.iter().map(|arm| match arm {
                    Arm::Case { body, .. } | Arm::Default { body, .. } => &**body,
                });
                let mut branches = Branches::of_all(bodies, is_usual);
                branches.has_gap |= !has_default(arms);
                branches
            }
        }
    }

    fn of_all<'t, V: 't>(
        bodies: impl Iterator<Item = &'t [Cond<Target, V>]>,
        is_usual: &impl Fn(&V) -> bool,
    ) -> Branches {
        let mut all = Branches {
            are_usual: true,
            has_gap: false,
        };
        for body in bodies {
            all.has_gap |= body.is_empty();
            for c in body {
                let inner = Branches::of(c, is_usual);
                all.are_usual &= inner.are_usual;
                all.has_gap |= inner.has_gap;
            }
        }
        all
    }

    fn say_nothing(&self) -> bool {
        self.are_usual && self.has_gap
    }
}

fn has_default<V>(arms: &[Arm<Target, V>]) -> bool {
    arms.iter().any(|arm| matches!(arm, Arm::Default { .. }))
}

/// The conditionals of an attribute.
struct Gaps<'c, 'd, 'f> {
    context: &'c Context<'d>,
    findings: &'f mut Findings<'d>,
}

impl Gaps<'_, '_, '_> {
    fn add<V>(&mut self, c: &Cond<Target, V>, kind: ConditionKind) {
        let at = self.context.places.conditional(c).word;
        self.findings.add(at, kind);
    }

    // A SELECT over a variable of enumerators, of which one has no text.
    fn check_cases<V>(&mut self, c: &Cond<Target, V>) {
        let Cond::Select { on, arms } = c else {
            return;
        };
        let number = selected_variable(on).filter(|_| !has_default(arms));
        let known = number.and_then(|number| self.context.instrument.variable(number));
        let Some(variable) = known.filter(|known| known.kind == Some(VarType::Enumerated)) else {
            return;
        };
        let labels = arms.iter().filter_map(|arm| match arm {
            Arm::Case { label, .. } => Some(*label),
            Arm::Default { .. } => None,
        });
        let labels: HashSet<i64> = labels.collect();
        let missing = variable
            .enumerators
            .iter()
            .copied()
            .filter(|number| !labels.contains(number));
        if let Some(number) = missing.min() {
            let name = variable.name().to_owned();
            self.add(c, ConditionKind::MissingCase(number, name));
        }
    }
}

impl<'t> Conditionals<'t> for Gaps<'_, '_, '_> {
    fn take<V: Value>(&mut self, all: &'t [Cond<Target, V>]) {
        for c in all {
            self.check_cases(c);
        }
    }
}

/// The numbers of the cases of a SELECT or a `switch`, with their places.
pub(crate) struct Cases {
    pub(crate) labels: Vec<(i64, TokenIndex)>,
    pub(crate) has_default: bool,
}

/// For how many numbers within the limits of a variable there may be cases.
const MOST_CASES: i64 = 64;

/// Checks cases over a variable with limits, of which one is outside of them, where a number within has none.
pub(crate) fn check_shifted(
    number: Option<u16>,
    cases: &Cases,
    context: &Context<'_>,
    findings: &mut Findings<'_>,
) {
    let variable = number.and_then(|number| context.instrument.variable(number));
    let Some(variable) = variable.filter(|one| one.enumerators.is_empty() && !one.is_read_only)
    else {
        return;
    };
    let (Some(least), Some(greatest)) = (variable.least, variable.greatest) else {
        return;
    };
    if cases.has_default || MOST_CASES <= greatest.saturating_sub(least) {
        return;
    }
    let labels: HashSet<_> = cases.labels.iter().map(|(label, _)| *label).collect();
    let missing = (least..=greatest).find(|number| !labels.contains(number));
    let holds = |label: i64| variable.range.is_some_and(|range| range.holds(label));
    let mut outside = cases.labels.iter();
    let outside = outside.find(|(label, _)| (*label < least || greatest < *label) && holds(*label));
    if let (Some(missing), Some((label, at))) = (missing, outside) {
        findings.add(*at, ConditionKind::ShiftedCases(*label, missing));
    }
}

/// The conditions under which there is nothing.
struct Empty<'c, 'd, 'f> {
    gaps: Gaps<'c, 'd, 'f>,
}

impl<'t> Visitor<'t> for Empty<'_, '_, '_> {
    fn conditional<V>(&mut self, c: &'t Cond<Target, V>) {
        let is_empty = match c {
            Cond::Value(_) => false,
            Cond::If {
                first, otherwise, ..
            } => first.is_empty() && otherwise.is_empty(),
            Cond::Select { arms, .. } => arms.iter().all(|arm| match arm {
                Arm::Case { body, .. } | Arm::Default { body, .. } => body.is_empty(),
            }),
        };
        if is_empty {
            self.gaps.add(c, ConditionKind::NothingUnderCondition);
        }
    }
}

/// Checks what the conditionals of an item leave out.
pub(crate) fn check_gaps<'d>(
    item: &Item<Target>,
    context: &Context<'d>,
    findings: &mut Findings<'d>,
) {
    let mut gaps = Gaps { context, findings };
    for attribute in &item.attributes {
        match attribute {
            Attribute::Validity(_, c) if Branches::of(c, &|truth| *truth).say_nothing() => {
                gaps.add(c, ConditionKind::IdleValidity);
            }
            Attribute::Handling(_, c)
                if Branches::of(c, &|handling| *handling == Handling::ReadWrite).say_nothing() =>
            {
                gaps.add(c, ConditionKind::IdleHandling);
            }
            Attribute::OneText(_, TextAttribute::Label | TextAttribute::ConstantUnit, _) => {
                conditionals_of(attribute, &mut gaps);
            }
            _ => {}
        }
    }
    visit_conditionals_of(item, &mut Empty { gaps });
}
