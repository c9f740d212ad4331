//! The bodies of methods.

mod aborts;
mod answers;
mod cases;
mod choices;
mod elements;
pub(crate) mod flow;
mod layout;
mod locals;
pub(crate) mod loops;
mod repeats;
mod selections;
mod sends;
mod statements;
mod states;
mod stores;
mod turns;
mod waits;

use crate::context::Context;
use crate::expressions::operands::referred;
use crate::expressions::walk::Walk;
use crate::kind::MethodKind;
use crate::settled::check_body;
use crate::source::{TokenIndex, index};
use crate::visit::{Visitor, visit_parts};
use crate::warning::Findings;
use aborts::check_abort_methods;
use answers::check_answers;
use choices::check_choices;
use edd_constants::evaluate;
use edd_instructions::Sort;
use edd_syntax::expr::Expr;
use edd_syntax::item::{Attribute, Item};
use edd_syntax::numbers::ItemNo;
use edd_syntax::operators::{Builtin, RequestKind};
use edd_syntax::reference::Target;
use edd_syntax::stmt::{Part, Stmt};
use elements::check_elements;
use locals::check_locals;
use repeats::check_repeats;
use selections::check_selections;
use sends::{check_copies, check_saves, check_sends};
use statements::check_parts;
use states::check_states;

/// How many abort methods there may be.
const MOST_ABORT_METHODS: usize = 8;

// The place of a call that adds an abort method, which is the whole statement.
fn adding(part: &Part<Target>) -> Option<TokenIndex> {
    match part {
        Part::Statement(Stmt::Evaluate(Expr::Call {
            at,
            function: Target::Function(Builtin::AddAbortMethod),
            ..
        })) => Some(index(*at)),
        _ => None,
    }
}

fn check_added(parts: &[Part<Target>], findings: &mut Findings<'_>) {
    for at in parts.iter().filter_map(adding).skip(MOST_ABORT_METHODS) {
        findings.add(at, MethodKind::NinthAbortMethod);
    }
}

/// What the calls of a body are, as far as there are checks of such calls.
#[derive(Default)]
struct Called {
    adds_abort_methods: bool,
    /// Whether an answer says which of some choices came.
    selects: bool,
    /// Whether a command is sent.
    sends: bool,
    saves: bool,
    /// Whether a value is asked for.
    enters: bool,
    has_elements: bool,
    has_loops: bool,
    /// Whether a variable is set to a constant.
    sets_constants: bool,
    /// Whether what a local keeps is stored in a variable.
    stores_locals: bool,
}

impl<'t> Visitor<'t> for Called {
    fn expression(&mut self, e: &'t Expr<Target>, _: Sort) {
        match e {
            Expr::Call {
                function: Target::Function(function),
                ..
            } => self.add_call(*function),
            Expr::Indexed(..) => self.has_elements = true,
            Expr::Assign(Target::Item(_), value) => match referred(value) {
                Some(Target::Local(_)) => self.stores_locals = true,
                Some(_) => {}
                None => self.sets_constants |= evaluate(value, Sort::Method).number().is_some(),
            },
            _ => {}
        }
    }

    fn statement(&mut self, s: &'t Stmt<Target>) {
        self.has_loops |= matches!(s, Stmt::While(..) | Stmt::Do(..) | Stmt::For { .. });
    }
}

impl Called {
    fn add_call(&mut self, function: Builtin) {
        match function {
            Builtin::AddAbortMethod => self.adds_abort_methods = true,
            Builtin::Ask(RequestKind::SelectFromList) => self.selects = true,
            Builtin::Ask(RequestKind::SendCommand | RequestKind::SendCommandTrans) => {
                self.sends = true;
            }
            Builtin::Ask(RequestKind::SaveValues) => self.saves = true,
            Builtin::Ask(RequestKind::GetDevVarValue) => self.enters = true,
            _ => {}
        }
    }
}

// Checks of a body what is there to be checked of it.
fn check_called<'d>(
    method: &Item<Target>,
    parts: &[Part<Target>],
    called: &Called,
    context: &Context<'d>,
    findings: &mut Findings<'d>,
) {
    if called.selects || called.sends {
        check_choices(parts, context, findings);
    }
    if called.sends {
        check_answers(parts, context, findings);
        check_sends(parts, context, findings);
    }
    if called.saves {
        check_saves(parts, context, findings);
    }
    if called.stores_locals {
        check_copies(parts, context, findings);
    }
    if called.selects {
        check_selections(parts, context, findings);
    }
    if called.sets_constants {
        check_states(method, parts, context, findings);
    }
    if called.has_loops {
        check_repeats(parts, context, findings);
    }
    if called.has_elements || called.enters {
        check_elements(parts, context, findings);
    }
}

/// Checks the definition of a method.
pub(crate) fn check_method<'d>(
    method: &Item<Target>,
    own: Option<ItemNo>,
    context: &Context<'d>,
    findings: &mut Findings<'d>,
) {
    for attribute in &method.attributes {
        if let Attribute::Definition(at, parts) = attribute {
            let mut walk = Walk::new(Sort::Method, context, findings);
            // A comment at the end of a body says nothing of what goes on.
            check_parts(parts, index(*at), &mut walk);
            check_locals(parts, &mut walk);
            let mut called = Called::default();
            visit_parts(parts, &mut called);
            if called.adds_abort_methods {
                check_added(parts, findings);
                check_abort_methods(own, parts, context, findings);
            }
            check_called(method, parts, &called, context, findings);
            check_body(parts, context, findings);
        }
    }
}
