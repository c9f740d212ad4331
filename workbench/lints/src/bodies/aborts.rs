//! Abort methods that are added where they do nothing, or again and again.

use super::flow::is_abort;
use super::stores::has_call;
use crate::context::Context;
use crate::kind::MethodKind;
use crate::source::{TokenIndex, index};
use crate::visit::{Visitor, visit_parts, visit_statement};
use crate::warning::Findings;
use edd_instructions::Sort;
use edd_syntax::expr::{Argument, Expr};
use edd_syntax::item::{Attribute, Item};
use edd_syntax::numbers::ItemNo;
use edd_syntax::operators::Builtin;
use edd_syntax::reference::Target;
use edd_syntax::stmt::{Part, Stmt};
use std::collections::HashMap;

// The method that a call adds, and where the call is.
fn added_by(e: &Expr<Target>) -> Option<(ItemNo, TokenIndex)> {
    let Expr::Call {
        at,
        function: Target::Function(Builtin::AddAbortMethod),
        arguments,
    } = e
    else {
        return None;
    };
    match arguments.first()? {
        Argument::Value(Expr::Reference(Target::Item(method))) => Some((*method, index(*at))),
        _ => None,
    }
}

fn added_by_part(part: &Part<Target>) -> Option<(ItemNo, TokenIndex)> {
    match part {
        Part::Statement(Stmt::Evaluate(e)) => added_by(e),
        _ => None,
    }
}

/// The calls in a body.
struct Calls<'f, 'c, 'd> {
    context: &'c Context<'d>,
    findings: &'f mut Findings<'d>,
    own: Option<ItemNo>,
}

// Whether a method begins with an abort.
fn only_aborts(method: &Item<Target>) -> bool {
    method.attributes.iter().any(|attribute| match attribute {
        Attribute::Definition(_, parts) => parts.first().is_some_and(is_abort_part),
        _ => false,
    })
}

impl<'t> Visitor<'t> for Calls<'_, '_, '_> {
    fn expression(&mut self, e: &'t Expr<Target>, _: Sort) {
        let Some((method, at)) = added_by(e) else {
            return;
        };
        let instrument = &self.context.instrument;
        let place = instrument.place_of(method);
        if Some(method) == self.own {
            self.findings.add(at, MethodKind::OwnAbortMethod);
        } else if place
            .and_then(|place| instrument.items.get(place))
            .is_some_and(only_aborts)
        {
            self.findings.add(at, MethodKind::IdleAbortMethod);
        }
    }

    fn statement(&mut self, s: &'t Stmt<Target>) {
        let body = match s {
            Stmt::While(_, body) | Stmt::Do(body, _) | Stmt::For { body, .. } => body,
            _ => return,
        };
        visit_statement(
            body,
            &mut Looped {
                findings: self.findings,
            },
        );
    }
}

/// The calls in a loop. Those of an inner loop are seen from there.
struct Looped<'f, 'd> {
    findings: &'f mut Findings<'d>,
}

impl<'t> Visitor<'t> for Looped<'_, '_> {
    fn expression(&mut self, e: &'t Expr<Target>, _: Sort) {
        if let Some((_, at)) = added_by(e)
            && !self.findings.is_reported(self.findings.source.span(at))
        {
            self.findings.add(at, MethodKind::LoopedAbortMethod);
        }
    }
}

/// The calls that add, under a condition, what the statements before have added.
struct Again<'s, 'f, 'd> {
    seen: &'s HashMap<Option<usize>, (TokenIndex, usize)>,
    context: &'s Context<'d>,
    findings: &'f mut Findings<'d>,
}

impl<'t> Visitor<'t> for Again<'_, '_, '_> {
    fn expression(&mut self, e: &'t Expr<Target>, _: Sort) {
        if let Some((method, at)) = added_by(e)
            && let Some((earlier, _)) = self.seen.get(&self.context.instrument.place_of(method))
            && !self.findings.is_reported(self.findings.source.span(at))
        {
            self.findings
                .add_beside(at, MethodKind::RepeatedAbortMethod, *earlier);
        }
    }
}

fn is_abort_part(part: &Part<Target>) -> bool {
    matches!(part, Part::Statement(Stmt::Evaluate(e)) if is_abort(e))
}

// Whether nothing in a part asks a host or aborts.
fn is_quiet(part: &Part<Target>) -> bool {
    match part {
        Part::Statement(Stmt::Empty | Stmt::Return) => true,
        Part::Statement(Stmt::Evaluate(e)) => !has_call(e),
        _ => false,
    }
}

/// Checks where the body of a method adds abort methods.
pub(super) fn check_abort_methods<'d>(
    own: Option<ItemNo>,
    parts: &[Part<Target>],
    context: &Context<'d>,
    findings: &mut Findings<'d>,
) {
    let mut seen = HashMap::new();
    for part in parts {
        let Some((method, at)) = added_by_part(part) else {
            let mut again = Again {
                seen: &seen,
                context,
                findings,
            };
            visit_parts(std::slice::from_ref(part), &mut again);
            continue;
        };
        let place = context.instrument.place_of(method);
        // The second one tells enough.
        let (earlier, count) = seen.entry(place).or_insert((at, 0usize));
        if *count == 1 {
            findings.add_beside(at, MethodKind::RepeatedAbortMethod, *earlier);
        }
        *count = count.saturating_add(1);
    }
    // What comes last can't be followed by an abort. A body of such calls alone is left alone, and
    // so is what is never reached.
    let mut rest = parts
        .iter()
        .rev()
        .skip_while(|part| is_quiet(part))
        .peekable();
    let last = rest.next().and_then(added_by_part);
    let is_reached = !rest.peek().is_some_and(|part| is_abort_part(part));
    let has_others = rest.any(|part| added_by_part(part).is_none());
    if let Some((_, at)) = last.filter(|_| is_reached && has_others) {
        findings.add(at, MethodKind::LateAbortMethod);
    }
    let mut calls = Calls {
        context,
        findings,
        own,
    };
    visit_parts(parts, &mut calls);
}
