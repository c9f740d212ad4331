//! Variables that can be changed only where they have a value already: what would change them is not there
//! otherwise.

use crate::context::Context;
use crate::expressions::calls::target_of_argument;
use crate::instrument::{Variable, variable_of};
use crate::kind::VariableKind;
use crate::menus::item_shown;
use crate::settled::where_valid;
use crate::source::{TokenIndex, index};
use crate::traits::classes_of;
use crate::types::number_parts;
use crate::usage::{Variables, has_validity};
use crate::values::Values;
use crate::values::environment::{Environment, Storage, storage_of};
use crate::visit::{Visitor, visit_item};
use crate::warning::Findings;
use edd_instructions::Sort;
use edd_syntax::cond::{Arm, Cond};
use edd_syntax::expr::Expr;
use edd_syntax::item::{Attribute, Item, ItemKind, MenuEntry};
use edd_syntax::numbers::{CollNo, ItemNo, NumberOption};
use edd_syntax::operators::{Builtin, Comparison, RequestKind};
use edd_syntax::reference::Target;
use std::collections::{BTreeMap, BTreeSet};

/// A place at which a variable can be changed, and what it is there.
struct Change {
    at: TokenIndex,
    there: Values,
}

/// The variables that something changes whatever they are.
#[derive(Default)]
struct Free {
    /// By methods, or as members of collections.
    always: Variables,
    /// By entries of menus, where they can be entered.
    entered: Variables,
}

/// Where variables can be changed.
struct Changes<'c, 'd> {
    context: &'c Context<'d>,
    free: Free,
    /// The collections that are entries: their members can be changed wherever they are.
    collections: BTreeSet<u16>,
    /// Where others can be changed, by methods and by entries.
    by_methods: BTreeMap<u16, Vec<Change>>,
    by_entries: BTreeMap<u16, Vec<Change>>,
}

impl<'c, 'd> Changes<'c, 'd> {
    fn add(&mut self, variable: u16, at: TokenIndex, known: &Environment<'c, 'd>) {
        let storage = Storage::Variable(variable);
        if known.knows(storage) {
            let there = known.get(storage);
            let places = self.by_entries.entry(variable).or_default();
            places.push(Change { at, there });
        } else {
            self.free.entered.insert(variable);
        }
    }

    fn add_set(&mut self, variable: u16, at: TokenIndex, known: &Environment<'c, 'd>) {
        let storage = Storage::Variable(variable);
        if known.knows(storage) {
            let there = known.get(storage);
            let places = self.by_methods.entry(variable).or_default();
            places.push(Change { at, there });
        } else {
            self.free.always.insert(variable);
        }
    }

    fn add_entries(
        &mut self,
        all: &[Cond<Target, MenuEntry<Target>>],
        known: Option<Environment<'c, 'd>>,
    ) {
        let Some(known) = known else {
            return;
        };
        for c in all {
            match c {
                Cond::Value(entry) => self.add_entry(entry, &known),
                Cond::If {
                    condition,
                    first,
                    otherwise,
                } => {
                    self.add_entries(first, known.clone().refined(condition, true));
                    self.add_entries(otherwise, known.clone().refined(condition, false));
                }
                Cond::Select { on, arms } => {
                    for arm in arms {
                        match arm {
                            Arm::Case { label, body } => {
                                let there = known.clone().selected(on, Comparison::Equal, *label);
                                self.add_entries(body, there);
                            }
                            Arm::Default { body, .. } => {
                                self.add_entries(body, Some(known.clone()));
                            }
                        }
                    }
                }
            }
        }
    }

    fn add_entry(&mut self, entry: &MenuEntry<Target>, known: &Environment<'c, 'd>) {
        let Some((item, qualifiers)) = item_shown(entry) else {
            return;
        };
        let at = self.context.places.entry(entry);
        match item {
            ItemNo::Variable(variable) if !qualifiers.read_only && !qualifiers.hidden => {
                self.add(variable.0, at, known);
            }
            ItemNo::Collection(number) => {
                self.collections.insert(number.0);
            }
            _ => {}
        }
    }

    fn add_item(&mut self, item: &Item<Target>) {
        let there = || where_valid(item, Environment::new(Sort::Attribute, self.context));
        match item.sort {
            ItemKind::Menu => {
                let there = there();
                for attribute in &item.attributes {
                    if let Attribute::Items(_, entries) = attribute {
                        self.add_entries(entries, Some(there.clone()));
                    }
                }
            }
            // What the other methods set is known already.
            ItemKind::Method if has_validity(item) => {
                let there = there();
                let mut sets = Sets::default();
                visit_item(item, &mut sets);
                for variable in sets.variables {
                    self.add_set(variable, index(item.at), &there);
                }
            }
            _ => {}
        }
    }
}

fn members_of(item: &Item<Target>) -> impl Iterator<Item = u16> {
    let members = item.attributes.iter().filter_map(|one| match one {
        Attribute::Members(_, members) => Some(members.iter()),
        _ => None,
    });
    members
        .flatten()
        .filter_map(|member| variable_of(member.item))
}

/// The variables that a method sets.
#[derive(Default)]
struct Sets {
    variables: BTreeSet<u16>,
}

impl<'t> Visitor<'t> for Sets {
    fn expression(&mut self, e: &'t Expr<Target>, _: Sort) {
        let target = match e {
            Expr::Assign(to, _) | Expr::CompoundAssign(_, to, _) | Expr::Increment(_, to) => {
                Some(*to)
            }
            Expr::Call {
                function: Target::Function(function),
                arguments,
                ..
            } => match function {
                Builtin::Iassign | Builtin::Lassign => target_of_argument(arguments, 0),
                Builtin::Ask(RequestKind::GetDevVarValue) => target_of_argument(arguments, 1),
                _ => None,
            },
            _ => None,
        };
        let storage = target.and_then(storage_of);
        if let Some(Storage::Variable(variable)) = storage {
            self.variables.insert(variable);
        }
    }
}

// What a variable may be: its enumerators, or the ends of what it holds.
fn candidates(variable: &Variable<'_>) -> Vec<i64> {
    let mut all = variable.enumerators.clone();
    if all.is_empty() {
        let ends = variable
            .range
            .iter()
            .flat_map(|range| [0, range.high, range.low]);
        all.extend(ends);
    }
    all
}

// The value at which nothing lets a variable be changed. Where its default is no such value it may be meant to
// be locked once.
fn locked_at(variable: &Variable<'_>, places: &[&Change]) -> Option<i64> {
    let is_locked = |number: &i64| !places.iter().any(|place| place.there.holds(*number));
    let mut parts = number_parts(variable.parts());
    let default = parts.find(|part| part.which == NumberOption::DefaultValue);
    let default = default.and_then(|part| part.number());
    if default.is_some_and(|default| !is_locked(&default)) {
        return None;
    }
    default.or_else(|| candidates(variable).into_iter().find(is_locked))
}

impl Changes<'_, '_> {
    // The first place at which a variable can be changed, and a value at which none of them lets it be.
    fn locked(&self, variable: &Variable<'_>) -> Option<(TokenIndex, i64)> {
        let number = variable.number;
        let usage = &self.context.usage;
        // What can't be entered is changed by methods alone.
        let is_entered = !variable.is_read_only;
        let is_free = self.free.always.contains(number)
            || (is_entered && self.free.entered.contains(number))
            || usage.freely_set.contains(number)
            || usage.replied.contains(number)
            || classes_of(variable).contains("DYNAMIC");
        if is_free {
            return None;
        }
        let by_methods = self.by_methods.get(&number).into_iter().flatten();
        let by_entries = self.by_entries.get(&number).filter(|_| is_entered);
        let mut places: Vec<_> = by_methods.chain(by_entries.into_iter().flatten()).collect();
        places.sort_by_key(|place| place.at);
        let locked = locked_at(variable, &places)?;
        Some((places.first()?.at, locked))
    }
}

/// Checks which variables can be changed only where they have a value already.
pub(crate) fn check_lockouts(context: &Context<'_>, findings: &mut Findings<'_>) {
    let mut changes = Changes {
        context,
        free: Free::default(),
        collections: BTreeSet::new(),
        by_methods: BTreeMap::new(),
        by_entries: BTreeMap::new(),
    };
    for item in context.instrument.items {
        changes.add_item(item);
    }
    for number in &changes.collections {
        let item = ItemNo::Collection(CollNo(*number));
        let place = context.instrument.place_of(item);
        let shown = place.and_then(|place| context.instrument.items.get(place));
        changes
            .free
            .always
            .extend(shown.into_iter().flat_map(members_of));
    }
    let numbers: BTreeSet<_> = changes
        .by_methods
        .keys()
        .chain(changes.by_entries.keys())
        .collect();
    for number in numbers {
        let variable = context.instrument.variable(*number);
        let locked = variable.and_then(|one| Some((one, changes.locked(one)?)));
        if let Some((variable, (at, number))) = locked {
            let kind = VariableKind::LockedOut(variable.name().to_owned(), number);
            findings.add(at, kind);
        }
    }
}
