//! Ways through the conditionals of attributes.

use super::Ways;
use crate::context::Context;
use crate::instrument::variable_of;
use crate::kind::{ConditionKind, MenuKind};
use crate::menus::item_shown;
use crate::values::environment::Environment;
use crate::visit::{Conditionals, Value, conditionals_of, for_children};
use crate::warning::Findings;
use edd_instructions::Sort;
use edd_syntax::cond::{Arm, Cond};
use edd_syntax::expr::Expr;
use edd_syntax::item::{Attribute, Item, MenuEntry};
use edd_syntax::operators::Comparison;
use edd_syntax::reference::Target;

impl<'t> Conditionals<'t> for Ways<'_, '_, '_> {
    fn take<V: Value>(&mut self, all: &'t [Cond<Target, V>]) {
        let known = Environment::new(Sort::Attribute, self.context);
        self.conditionals(all, &known, false);
    }
}

impl<'c, 'd> Ways<'c, 'd, '_> {
    fn conditionals<V: Value>(
        &mut self,
        all: &[Cond<Target, V>],
        known: &Environment<'c, 'd>,
        is_under_condition: bool,
    ) {
        for conditional in all {
            self.conditional(conditional, known, is_under_condition);
        }
    }

    fn conditional<V: Value>(
        &mut self,
        conditional: &Cond<Target, V>,
        known: &Environment<'c, 'd>,
        is_under_condition: bool,
    ) {
        match conditional {
            Cond::Value(value) => {
                if let Some(e) = value.expression() {
                    self.follow(e, &mut known.clone());
                }
                if let Some(entry) = value.entry() {
                    self.check_entry(entry, is_under_condition, known);
                }
            }
            Cond::If {
                condition,
                first,
                otherwise,
            } => {
                let at = self.context.places.conditional(conditional).word;
                let is_chained = self.is_chained;
                self.test_at(at, condition, &mut known.clone());
                self.is_chained = false;
                if let Some(inner) = known.clone().refined(condition, true) {
                    self.conditionals(first, &inner, true);
                }
                self.is_chained = matches!(&**otherwise, [Cond::If { .. }]);
                if let Some(inner) = known.clone().refined(condition, false) {
                    self.conditionals(otherwise, &inner, true);
                } else if is_chained && !otherwise.is_empty() {
                    self.check_last_else(condition, known.sort);
                }
                self.is_chained = false;
            }
            Cond::Select { on, arms } => {
                let values = self.follow(on, &mut known.clone());
                let is_computed = self.has_computed_labels(on, values, known.sort);
                for arm in arms {
                    if let Arm::Case { label, .. } = arm
                        && is_computed
                        && !values.holds(*label)
                    {
                        let at = self.context.places.arm(arm);
                        self.findings.add(at, ConditionKind::ImpossibleCase(*label));
                    }
                    self.arm(on, arm, known);
                }
            }
        }
    }

    fn arm<V: Value>(
        &mut self,
        on: &Expr<Target>,
        arm: &Arm<Target, V>,
        known: &Environment<'c, 'd>,
    ) {
        match arm {
            Arm::Case { label, body } => {
                let selected = known.clone().selected(on, Comparison::Equal, *label);
                if let Some(inner) = selected {
                    self.conditionals(body, &inner, true);
                }
            }
            Arm::Default { body, .. } => self.conditionals(body, known, true),
        }
    }

    // An entry that is never valid, or not where its conditions hold.
    fn check_entry(
        &mut self,
        entry: &MenuEntry<Target>,
        is_under_condition: bool,
        known: &Environment<'c, 'd>,
    ) {
        let shown = item_shown(entry).and_then(|(item, _)| self.context.instrument.place_of(item));
        let items = self.context.instrument.items;
        let Some(item) = shown.and_then(|place| items.get(place)) else {
            return;
        };
        let fresh = Environment::new(Sort::Attribute, self.context);
        let at = self.context.places.entry(entry);
        let name = || item.name().to_owned();
        if !may_be_valid(item, &fresh) {
            self.findings.add(at, MenuKind::NeverValid(name()));
        } else if is_under_condition && !may_be_valid(item, known) {
            self.findings.add(at, MenuKind::InvalidEntry(name()));
        }
    }
}

fn may_be_valid(item: &Item<Target>, known: &Environment<'_, '_>) -> bool {
    item.attributes.iter().all(|attribute| match attribute {
        Attribute::Validity(_, validity) => may_hold(validity, known),
        _ => true,
    })
}

// Whether a conditional may give TRUE. Where it gives nothing the item is valid.
fn may_hold(conditional: &Cond<Target, bool>, known: &Environment<'_, '_>) -> bool {
    let branch = |all: &[Cond<Target, bool>], known: Option<Environment<'_, '_>>| {
        known.is_some_and(|known| all.is_empty() || all.iter().any(|one| may_hold(one, &known)))
    };
    match conditional {
        Cond::Value(truth) => *truth,
        Cond::If {
            condition,
            first,
            otherwise,
        } => {
            branch(first, known.clone().refined(condition, true))
                || branch(otherwise, known.clone().refined(condition, false))
        }
        Cond::Select { .. } => true,
    }
}

/// What holds where a menu is shown. Entries that test it again are careful.
pub(crate) fn where_valid<'c, 'd>(
    menu: &Item<Target>,
    known: Environment<'c, 'd>,
) -> Environment<'c, 'd> {
    let condition = menu
        .attributes
        .iter()
        .find_map(|attribute| match attribute {
            Attribute::Validity(
                _,
                Cond::If {
                    condition,
                    first,
                    otherwise,
                },
            ) => match (&**first, &**otherwise) {
                ([Cond::Value(true)], [Cond::Value(false)]) => Some((condition, true)),
                ([Cond::Value(false)], [] | [Cond::Value(true)]) => Some((condition, false)),
                _ => None,
            },
            _ => None,
        });
    match condition {
        Some((condition, truth)) => {
            let there = known.clone().refined(condition, truth);
            there.map_or(known, Environment::all_passed)
        }
        None => known,
    }
}

/// Follows the conditionals of an item's attributes.
pub(crate) fn check_attributes<'d>(
    item: &Item<Target>,
    context: &Context<'d>,
    findings: &mut Findings<'d>,
) {
    let mut ways = Ways::new(context, findings);
    for attribute in &item.attributes {
        if let Attribute::Items(_, entries) = attribute {
            let known = where_valid(item, Environment::new(Sort::Attribute, context));
            ways.conditionals(entries, &known, false);
        } else {
            conditionals_of(attribute, &mut ways);
        }
    }
}

/// The variables that an expression reads.
pub(crate) fn variables_read(e: &Expr<Target>, found: &mut Vec<u16>) {
    if let Expr::Reference(target) = e {
        found.extend(variable_of(*target));
    }
    for_children(e, |inner| variables_read(inner, found));
}
