//! Texts of a SELECT that are those of other enumerators.

use crate::context::Context;
use crate::expressions::operands::selected_variable;
use crate::instrument::{Instrument, Variable};
use crate::kind::ConditionKind;
use crate::texts::variants::first_words;
use crate::traits::quoted;
use crate::visit::{Conditionals, Value, conditionals_of};
use crate::warning::Findings;
use edd_syntax::cond::{Arm, Cond};
use edd_syntax::item::{Attribute, Item};
use edd_syntax::reference::Target;
use std::collections::HashMap;

/// How many variables with one text are looked at.
const MOST: usize = 8;

/// The variables by the texts of their enumerators.
pub(crate) struct States {
    by_text: HashMap<String, Vec<u16>>,
}

impl States {
    pub(crate) fn of(instrument: &Instrument<'_>) -> States {
        let mut by_text: HashMap<String, Vec<u16>> = HashMap::new();
        for variable in instrument.variables() {
            for text in variable.all_words() {
                let known = by_text.entry(text.to_owned()).or_default();
                if known.len() < MOST && known.last() != Some(&variable.number) {
                    known.push(variable.number);
                }
            }
        }
        States { by_text }
    }

    // The one variable that has all of these texts, of which there are some.
    fn named_by(&self, texts: &[&str]) -> Option<u16> {
        let (first, rest) = texts.split_first()?;
        let mut found = self.by_text.get(*first)?.iter().copied().filter(|one| {
            let has = |text: &&str| {
                self.by_text
                    .get(*text)
                    .is_some_and(|known| known.contains(one))
            };
            rest.iter().all(has)
        });
        let one = found.next()?;
        (!rest.is_empty() && found.next().is_none()).then_some(one)
    }
}

/// The conditionals of an attribute.
struct Texts<'c, 'd, 'f> {
    context: &'c Context<'d>,
    findings: &'f mut Findings<'d>,
}

impl Texts<'_, '_, '_> {
    fn check_arms<V: Value>(&mut self, arms: &[Arm<Target, V>], variable: &Variable<'_>) {
        let mut texts = Vec::new();
        for arm in arms {
            let Arm::Case { label, body } = arm else {
                continue;
            };
            let [Cond::Value(value)] = &**body else {
                continue;
            };
            let Some(text) = value.text().and_then(quoted).map(first_words) else {
                continue;
            };
            texts.push(text);
            let other = variable.enumerator_of(text).filter(|other| other != label);
            let has_own = variable.words_of(*label).is_some_and(|own| own != text);
            if let Some(other) = other.filter(|_| has_own) {
                let at = self.context.places.arm(arm);
                self.findings.add(at, ConditionKind::ExchangedText(other));
            }
        }
        // All texts may be those of another variable that is meant to be selected on.
        texts.sort_unstable();
        texts.dedup();
        let is_own = |text: &&str| variable.enumerator_of(text).is_some();
        if texts.len() < 2 || texts.iter().any(is_own) {
            return;
        }
        let named = self.context.states().named_by(&texts);
        if let (Some(other), Some(first)) = (named, arms.first()) {
            let at = self.context.places.arm(first);
            let name = self.context.instrument.name_of(other);
            self.findings.add(at, ConditionKind::OtherSelection(name));
        }
    }

    fn check<V: Value>(&mut self, all: &[Cond<Target, V>]) {
        for c in all {
            match c {
                Cond::Value(_) => {}
                Cond::If {
                    first, otherwise, ..
                } => {
                    self.check(first);
                    self.check(otherwise);
                }
                Cond::Select { on, arms } => {
                    let number = selected_variable(on);
                    let known = number.and_then(|one| self.context.instrument.variable(one));
                    if let Some(variable) = known.filter(|one| !one.enumerators.is_empty()) {
                        self.check_arms(arms, variable);
                    }
                    for arm in arms {
                        let (Arm::Case { body, .. } | Arm::Default { body, .. }) = arm;
                        self.check(body);
                    }
                }
            }
        }
    }
}

impl<'t> Conditionals<'t> for Texts<'_, '_, '_> {
    fn take<V: Value>(&mut self, all: &'t [Cond<Target, V>]) {
        self.check(all);
    }
}

/// Checks the texts of an item that follow a variable of enumerators.
pub(crate) fn check_exchanged<'d>(
    item: &Item<Target>,
    context: &Context<'d>,
    findings: &mut Findings<'d>,
) {
    for attribute in &item.attributes {
        if let Attribute::OneText(..) = attribute {
            let mut texts = Texts { context, findings };
            conditionals_of(attribute, &mut texts);
        }
    }
}
