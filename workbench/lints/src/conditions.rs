//! Conditions of attributes that never change, and labels that a SELECT has twice.

use crate::context::Context;
use crate::expressions::operands::{check_label, selected_variable};
use crate::expressions::walk::Walk;
use crate::expressions::{Test, check_condition, check_expression};
use crate::gaps::{Cases, check_shifted};
use crate::repeats::{Numbered, Numbers};
use crate::visit::{Conditionals, Value, conditionals_of};
use crate::warning::Findings;
use edd_instructions::Sort;
use edd_syntax::cond::{Arm, Cond};
use edd_syntax::item::Item;
use edd_syntax::reference::Target;

fn check_conditional<V: Value>(conditional: &Cond<Target, V>, walk: &mut Walk<'_, '_>) {
    match conditional {
        Cond::Value(value) => {
            if let Some(e) = value.expression() {
                check_expression(e, false, walk);
            }
        }
        Cond::If {
            condition,
            first,
            otherwise,
        } => {
            let at = walk.context.places.conditional(conditional).word;
            check_condition(condition, at, Test::Condition, walk);
            check_conditionals(first, walk);
            check_conditionals(otherwise, walk);
        }
        Cond::Select { on, arms } => {
            let at = walk.context.places.conditional(conditional).word;
            walk.selected.push(selected_variable(on));
            check_condition(on, at, Test::Condition, walk);
            check_arms(arms, walk);
            walk.selected.pop();
        }
    }
}

fn check_arms<V: Value>(arms: &[Arm<Target, V>], walk: &mut Walk<'_, '_>) {
    let mut labels = Numbers::new(Numbered::Case);
    let cases = Cases {
        labels: arms
            .iter()
            .filter_map(|arm| match arm {
                Arm::Case { label, .. } => Some((*label, walk.context.places.arm(arm))),
                Arm::Default { .. } => None,
            })
            .collect(),
        has_default: arms.iter().any(|arm| matches!(arm, Arm::Default { .. })),
    };
    let selected = walk.selected.last().copied().flatten();
    check_shifted(selected, &cases, walk.context, walk.findings);
    for arm in arms {
        let (Arm::Case { body, .. } | Arm::Default { body, .. }) = arm;
        if let Arm::Case { label, .. } = arm {
            let at = walk.context.places.arm(arm);
            check_label(*label, at, walk);
            labels.add(*label, at, walk.findings);
        }
        check_conditionals(body, walk);
    }
}

fn check_conditionals<V: Value>(all: &[Cond<Target, V>], walk: &mut Walk<'_, '_>) {
    for conditional in all {
        check_conditional(conditional, walk);
    }
}

impl<'t> Conditionals<'t> for Walk<'_, '_> {
    fn take<V: Value>(&mut self, all: &'t [Cond<Target, V>]) {
        check_conditionals(all, self);
    }
}

/// Checks the conditionals of an item's attributes.
pub(crate) fn check_conditionals_of<'d>(
    item: &Item<Target>,
    context: &Context<'d>,
    findings: &mut Findings<'d>,
) {
    let mut walk = Walk::new(Sort::Attribute, context, findings);
    for attribute in &item.attributes {
        conditionals_of(attribute, &mut walk);
    }
}
