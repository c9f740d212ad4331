//! Enumerators under conditions: a default that is not always one of them, and those that can be chosen only
//! where they are chosen already.

use crate::context::Context;
use crate::instrument::Variable;
use crate::kind::VariableKind;
use crate::limits::sum_of;
use crate::lists::values_in;
use crate::names::target_of;
use crate::settled::variables_read;
use crate::source::index;
use crate::types::{NumberPart, number_of, number_parts};
use crate::values::Values;
use crate::values::environment::{Environment, Storage};
use crate::values::evaluation::Nobody;
use crate::visit::{Visitor, visit_conditional};
use crate::warning::Findings;
use edd_instructions::Sort;
use edd_syntax::cond::{Arm, Cond};
use edd_syntax::expr::Expr;
use edd_syntax::item::{Enumerator, TypePart};
use edd_syntax::numbers::NumberOption;
use edd_syntax::operators::Comparison;
use edd_syntax::reference::Target;
use edd_syntax::types::VarType;
use std::collections::HashSet;

/// Of how many enumerators a list is looked at for each value of its variable.
const MOST: usize = 64;

type Element = Cond<Target, Enumerator>;

fn elements_of(parts: &[TypePart<Target>]) -> impl Iterator<Item = &Element> + Clone {
    parts.iter().filter_map(|part| match part {
        TypePart::Element(element) => Some(element),
        _ => None,
    })
}

/// Whether a number is offered in some branch that is left, or in all of them.
#[derive(Clone, Copy, PartialEq, Eq)]
enum Offered {
    Somewhere,
    Everywhere,
}

impl Offered {
    fn by(self, element: &Element, number: i64, known: &Environment<'_, '_>) -> bool {
        match element {
            Cond::Value(one) => one.value == number,
            Cond::If {
                condition,
                first,
                otherwise,
            } => {
                let branches = [(first, true), (otherwise, false)];
                let left = branches.into_iter().filter_map(|(body, truth)| {
                    let known = known.clone().refined(condition, truth)?;
                    Some(self.by_any(body, number, &known))
                });
                self.joined(left)
            }
            Cond::Select { on, arms } => {
                let has_default = arms.iter().any(|arm| matches!(arm, Arm::Default { .. }));
                let left = arms.iter().filter_map(|arm| match arm {
                    Arm::Case { label, body } => {
                        let known = known.clone().selected(on, Comparison::Equal, *label)?;
                        Some(self.by_any(body, number, &known))
                    }
                    Arm::Default { body, .. } => Some(self.by_any(body, number, known)),
                });
                let gap = (!has_default && self == Offered::Everywhere).then_some(false);
                self.joined(left.chain(gap))
            }
        }
    }

    fn by_any(self, all: &[Element], number: i64, known: &Environment<'_, '_>) -> bool {
        all.iter().any(|element| self.by(element, number, known))
    }

    fn joined(self, mut branches: impl Iterator<Item = bool>) -> bool {
        match self {
            Offered::Somewhere => branches.any(|one| one),
            Offered::Everywhere => branches.all(|one| one),
        }
    }
}

/// The variables that conditionals read.
#[derive(Default)]
struct Read {
    variables: Vec<u16>,
}

impl<'t> Visitor<'t> for Read {
    fn expression(&mut self, e: &'t Expr<Target>, _: Sort) {
        if let Expr::Reference(_) = e {
            variables_read(e, &mut self.variables);
        }
    }
}

fn read_by<'t>(elements: impl Iterator<Item = &'t Element>) -> HashSet<u16> {
    let mut read = Read::default();
    for element in elements {
        visit_conditional(element, &mut read);
    }
    read.variables.into_iter().collect()
}

fn default_of<'t>(variable: &Variable<'t>) -> Option<NumberPart<'t>> {
    number_parts(variable.parts()).find(|part| part.which == NumberOption::DefaultValue)
}

// What is known where all of these variables have their defaults.
fn with_defaults<'c, 'd>(read: &HashSet<u16>, context: &'c Context<'d>) -> Environment<'c, 'd> {
    let mut known = Environment::new(Sort::Attribute, context);
    for number in read {
        let variable = context.instrument.variable(*number);
        let default = variable.and_then(default_of).and_then(|part| part.number());
        let place = Expr::Reference(target_of(*number));
        if let Some(default) = default {
            let there = known.clone().selected(&place, Comparison::Equal, default);
            known = there.unwrap_or(known);
        }
    }
    known
}

// What an option of a variable gives where all that it reads has its default. One that reads the variable
// itself goes in a circle, which is told elsewhere.
fn number_with_defaults(part: &NumberPart<'_>, own: u16, context: &Context<'_>) -> Option<i64> {
    let Cond::Value(e) = part.value else {
        return None;
    };
    if part.number().is_some() {
        return part.number();
    }
    // What is computed of several values may be meant for others than their defaults.
    sum_of(e, Sort::Attribute, &context.instrument)?;
    let mut read = Read::default();
    visit_conditional(part.value, &mut read);
    let read: HashSet<u16> = read.variables.into_iter().collect();
    if read.contains(&own) {
        return None;
    }
    with_defaults(&read, context)
        .evaluate(e, &mut Nobody)
        .number()
}

/// Checks the default of a variable with its limits, where all that these read has its default.
pub(crate) fn check_set_back(
    variable: &Variable<'_>,
    context: &Context<'_>,
    findings: &mut Findings<'_>,
) {
    let part = |which| number_parts(variable.parts()).find(|part| part.which == which);
    let Some(default) = part(NumberOption::DefaultValue) else {
        return;
    };
    let Some(number) = number_with_defaults(&default, variable.number, context) else {
        return;
    };
    for which in [NumberOption::MinValue, NumberOption::MaxValue] {
        let Some(limit) = part(which) else {
            continue;
        };
        // Of two constants, and of what is known whatever holds, it is told elsewhere.
        let is_plain = limit.number().is_some() && default.number().is_some();
        let is_told = findings.is_reported(findings.source.span(default.at));
        let Some(end) = number_with_defaults(&limit, variable.number, context)
            .filter(|_| !is_plain && !is_told)
        else {
            continue;
        };
        let kind = match which {
            NumberOption::MinValue if number < end => VariableKind::DefaultBelow(number, end),
            NumberOption::MaxValue if end < number => VariableKind::DefaultOver(number, end),
            _ => continue,
        };
        findings.add_beside(default.at, kind, limit.at);
    }
}

// A default that is offered in some branches and not in others, also where all has its default.
fn check_default(variable: &Variable<'_>, context: &Context<'_>, findings: &mut Findings<'_>) {
    let Some(part) = default_of(variable) else {
        return;
    };
    let elements = elements_of(variable.parts());
    if !elements.clone().any(|one| !matches!(one, Cond::Value(_))) {
        return;
    }
    // Under a condition of its own it may follow that of the enumerators.
    let mut defaults = values_in(part.value);
    let (Some(default), None) = (defaults.next(), defaults.next()) else {
        return;
    };
    let Some(number) = number_of(default.value).filter(|_| part.number().is_some()) else {
        return;
    };
    let is_offered = |how: Offered, known: &Environment<'_, '_>| {
        elements
            .clone()
            .any(|element| how.by(element, number, known))
    };
    let known = Environment::new(Sort::Attribute, context);
    let there = with_defaults(&read_by(elements.clone()), context);
    if is_offered(Offered::Somewhere, &known)
        && !is_offered(Offered::Everywhere, &known)
        && !is_offered(Offered::Everywhere, &there)
    {
        findings.add(part.at, VariableKind::ConditionalDefault(number));
    }
}

/// A walk over the enumerators of a variable, with what it is where each is offered.
struct Places<'t> {
    own: Storage,
    all: Vec<(&'t Enumerator, Values)>,
}

impl<'t> Places<'t> {
    fn add(&mut self, element: &'t Element, known: &Environment<'_, '_>) {
        match element {
            Cond::Value(one) => self.all.push((one, known.get(self.own))),
            Cond::If {
                condition,
                first,
                otherwise,
            } => {
                for (body, truth) in [(first, true), (otherwise, false)] {
                    self.add_all(body, known.clone().refined(condition, truth));
                }
            }
            Cond::Select { on, arms } => {
                for arm in arms {
                    match arm {
                        Arm::Case { label, body } => {
                            let there = known.clone().selected(on, Comparison::Equal, *label);
                            self.add_all(body, there);
                        }
                        Arm::Default { body, .. } => self.add_all(body, Some(known.clone())),
                    }
                }
            }
        }
    }

    fn add_all(&mut self, all: &'t [Element], known: Option<Environment<'_, '_>>) {
        if let Some(known) = known {
            for element in all {
                self.add(element, &known);
            }
        }
    }
}

// The values that are offered one after the other, from the first one on.
fn reached_from(start: i64, places: &Places<'_>) -> HashSet<i64> {
    let mut reached = HashSet::from([start]);
    loop {
        let offered = places
            .all
            .iter()
            .filter(|(_, there)| reached.iter().any(|value| there.holds(*value)))
            .map(|(one, _)| one.value);
        let further: Vec<i64> = offered.filter(|value| !reached.contains(value)).collect();
        if further.is_empty() {
            return reached;
        }
        reached.extend(further);
    }
}

// Enumerators that no other value of the variable offers. A device or a method may set them.
fn check_reached(
    number: u16,
    variable: &Variable<'_>,
    context: &Context<'_>,
    findings: &mut Findings<'_>,
) {
    let elements = elements_of(variable.parts());
    let is_long = MOST < variable.enumerators.len();
    let is_plain = |one: &Element| matches!(one, Cond::Value(_));
    if is_long || elements.clone().all(is_plain) || !read_by(elements.clone()).contains(&number) {
        return;
    }
    let mut places = Places {
        own: Storage::Variable(number),
        all: Vec::new(),
    };
    let known = Environment::new(Sort::Attribute, context);
    for element in elements {
        places.add(element, &known);
    }
    let default = default_of(variable).and_then(|part| part.number());
    let mut reached = reached_from(default.unwrap_or(0), &places);
    // Each is told once.
    for (one, _) in places.all {
        if reached.insert(one.value) {
            let name = variable.name().to_owned();
            let kind = VariableKind::UnreachableEnumerator(one.value, name);
            findings.add(index(one.at), kind);
        }
    }
}

/// Checks the enumerators of a variable that are under conditions.
pub(crate) fn check_offers(
    variable: &Variable<'_>,
    context: &Context<'_>,
    findings: &mut Findings<'_>,
) {
    if variable.kind != Some(VarType::Enumerated) {
        return;
    }
    check_default(variable, context, findings);
    let number = variable.number;
    let usage = &context.usage;
    if !usage.replied.contains(number) && !usage.set.contains(number) {
        check_reached(number, variable, context, findings);
    }
}
