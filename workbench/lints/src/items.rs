//! What is checked of each item by itself.

use crate::bodies::check_method;
use crate::branches::check_branches;
use crate::claims::check_claims;
use crate::classes::check_classes;
use crate::commands::check_command;
use crate::conditions::check_conditionals_of;
use crate::context::Context;
use crate::exchanged::check_exchanged;
use crate::gaps::check_gaps;
use crate::instrument::{Instrument, Variable};
use crate::limits::check_limits_under_conditions;
use crate::listings::check_listings;
use crate::names::{check_command_names, check_listed_names, check_variable_names};
use crate::offers::{check_offers, check_set_back};
use crate::settled::check_attributes;
use crate::source::{TokenIndex, index};
use crate::traffic::check_traffic;
use crate::traits::{check_label, check_traits};
use crate::types::check_type;
use crate::units::{check_limit_units, check_named_units};
use crate::warning::Findings;
use edd_syntax::item::{Item, ItemKind};
use edd_syntax::numbers::{ItemNo, MethNo};
use edd_syntax::reference::Target;

/// Items that are looked at together.
pub(crate) struct Part<'c, 'd> {
    items: &'d [Item<Target>],
    /// The variables among them.
    variables: &'c [Variable<'d>],
    /// How many commands and methods come before them.
    commands: usize,
    methods: u16,
}

/// How many tokens a part has where a text is long, if it does not end with a long item.
pub(crate) const PART: TokenIndex = 4096;

/// The items of a description in parts of so many tokens.
pub(crate) fn parts_of<'c, 'd>(
    instrument: &'c Instrument<'d>,
    length: TokenIndex,
) -> Vec<Part<'c, 'd>> {
    let (mut rest, mut others) = (instrument.items, instrument.variables());
    let (mut parts, mut commands, mut methods) = (Vec::new(), 0_usize, 0_u16);
    while let Some(first) = rest.first() {
        let end = index(first.at).saturating_add(length);
        let is_behind = |item: &Item<Target>| end <= index(item.at);
        let count = rest.iter().position(is_behind).unwrap_or(rest.len());
        let (items, behind) = rest.split_at(count);
        let of_kind = |kind| items.iter().filter(move |item| item.sort == kind).count();
        let (variables, next) = others.split_at(of_kind(ItemKind::Variable).min(others.len()));
        parts.push(Part {
            items,
            variables,
            commands,
            methods,
        });
        commands = commands.saturating_add(of_kind(ItemKind::Command));
        let more = u16::try_from(of_kind(ItemKind::Method)).unwrap_or(u16::MAX);
        methods = methods.saturating_add(more);
        (rest, others) = (behind, next);
    }
    parts
}

fn check_variable(variable: &Variable<'_>, context: &Context<'_>, findings: &mut Findings<'_>) {
    check_type(variable, context, findings);
    check_limits_under_conditions(variable, context, findings);
    check_traits(variable, context, findings);
    check_named_units(variable, findings);
    check_limit_units(variable, context, findings);
    check_claims(variable, findings);
    check_offers(variable, context, findings);
    check_set_back(variable, context, findings);
}

// Checks what items of all kinds have.
fn check_each<'d>(item: &Item<Target>, context: &Context<'d>, findings: &mut Findings<'d>) {
    check_classes(item, context, findings);
    check_gaps(item, context, findings);
    check_listings(item, context, findings);
    for attribute in &item.attributes {
        check_label(attribute, findings);
    }
    check_attributes(item, context, findings);
}

/// Checks items by themselves: what is found in one depends on no finding in another one.
pub(crate) fn check_items<'d>(
    part: &Part<'_, 'd>,
    context: &Context<'d>,
    findings: &mut Findings<'d>,
) {
    let mut variables = part.variables.iter();
    let mut commands = part.commands..;
    let mut methods = part.methods..;
    for item in part.items {
        check_conditionals_of(item, context, findings);
        check_branches(item, context, findings);
        let is_variable = item.sort == ItemKind::Variable;
        let variable = is_variable.then(|| variables.next()).flatten();
        if let Some(variable) = variable {
            check_variable(variable, context, findings);
        }
        match item.sort {
            ItemKind::Command => {
                check_command(item, context, findings);
                check_traffic(item, context, findings);
            }
            ItemKind::Method => {
                let own = methods.next().map(|number| ItemNo::Method(MethNo(number)));
                check_method(item, own, context, findings);
            }
            ItemKind::Variable | ItemKind::Menu | ItemKind::Collection(_) | ItemKind::Array => {}
        }
        check_each(item, context, findings);
        match item.sort {
            ItemKind::Variable => {
                if let Some(variable) = variable {
                    check_variable_names(variable, context, findings);
                }
            }
            ItemKind::Command => {
                let own = commands.next().map(|one| context.instrument.exchanges(one));
                check_command_names(item, own.unwrap_or_default(), context, findings);
            }
            _ => check_listed_names(item, context, findings),
        }
        check_exchanged(item, context, findings);
    }
}
