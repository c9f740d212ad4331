//! Locals that are not read, that are read before anything sets them, or that hide an item.

use crate::expressions::walk::Walk;
use crate::kind::MethodKind;
use crate::source::TokenIndex;
use edd_syntax::reference::Target;
use edd_syntax::stmt::{Part, Stmt};

/// The locals that parts declare, each by its slot and its name's place, in the order of their slots.
pub(crate) fn locals_of(parts: &[Part<Target>], walk: &Walk<'_, '_>) -> Vec<(u8, TokenIndex)> {
    let mut locals = Vec::new();
    for part in parts {
        add_part(part, walk, &mut locals);
    }
    locals
}

fn add_part(part: &Part<Target>, walk: &Walk<'_, '_>, locals: &mut Vec<(u8, TokenIndex)>) {
    match part {
        Part::Declare(declarators) => {
            for declarator in declarators {
                if let Target::Local(slot) = declarator.place {
                    locals.push((slot, walk.context.places.declarator(declarator)));
                }
            }
        }
        Part::Statement(s) => add_statement(s, walk, locals),
        Part::CaseLabel { .. } | Part::DefaultLabel { .. } => {}
    }
}

fn add_statement(s: &Stmt<Target>, walk: &Walk<'_, '_>, locals: &mut Vec<(u8, TokenIndex)>) {
    match s {
        Stmt::Block(parts) | Stmt::Switch(_, parts) => {
            for part in parts {
                add_part(part, walk, locals);
            }
        }
        Stmt::If(_, inner) | Stmt::While(_, inner) | Stmt::Do(inner, _) => {
            add_statement(inner, walk, locals);
        }
        Stmt::For { body, .. } => add_statement(body, walk, locals),
        Stmt::IfElse(_, first, otherwise) => {
            add_statement(first, walk, locals);
            add_statement(otherwise, walk, locals);
        }
        Stmt::Empty
        | Stmt::Evaluate(_)
        | Stmt::Break { .. }
        | Stmt::Continue { .. }
        | Stmt::Return => {}
    }
}

fn check_use(slot: u8, at: TokenIndex, name: &str, walk: &mut Walk<'_, '_>) {
    let name = || name.to_owned();
    if !walk.reads.contains(&slot) {
        walk.findings.add(at, MethodKind::UnreadLocal(name()));
    } else if !walk.writes.contains(&slot) {
        walk.findings.add(at, MethodKind::NeverSetLocal(name()));
    } else if walk.early.contains(&slot) {
        walk.findings.add(at, MethodKind::EarlyLocal(name()));
    }
}

/// Locals with the name of one around them. `around` has the names that are declared so far.
fn check_scopes<'s>(parts: &[Part<Target>], around: &mut Vec<&'s str>, walk: &mut Walk<'_, 's>) {
    let before = around.len();
    for part in parts {
        match part {
            Part::Declare(declarators) => {
                for declarator in declarators {
                    let at = walk.context.places.declarator(declarator);
                    let name = walk.context.source.word(at);
                    if around.contains(&name) {
                        walk.findings
                            .add(at, MethodKind::HidingLocals(name.to_owned()));
                    }
                    around.push(name);
                }
            }
            Part::Statement(s) => check_scopes_in(s, around, walk),
            Part::CaseLabel { .. } | Part::DefaultLabel { .. } => {}
        }
    }
    around.truncate(before);
}

fn check_scopes_in<'s>(s: &Stmt<Target>, around: &mut Vec<&'s str>, walk: &mut Walk<'_, 's>) {
    match s {
        Stmt::Block(parts) | Stmt::Switch(_, parts) => check_scopes(parts, around, walk),
        Stmt::If(_, inner) | Stmt::While(_, inner) | Stmt::Do(inner, _) => {
            check_scopes_in(inner, around, walk);
        }
        Stmt::For { body, .. } => check_scopes_in(body, around, walk),
        Stmt::IfElse(_, first, otherwise) => {
            check_scopes_in(first, around, walk);
            check_scopes_in(otherwise, around, walk);
        }
        _ => {}
    }
}

/// Checks all locals of a body that was walked through.
pub(super) fn check_locals(parts: &[Part<Target>], walk: &mut Walk<'_, '_>) {
    check_scopes(parts, &mut Vec::new(), walk);
    for (slot, at) in locals_of(parts, walk) {
        let name = walk.context.source.word(at);
        check_use(slot, at, name, walk);
        if walk.context.instrument.has_name(name) {
            walk.findings
                .add(at, MethodKind::HidingLocal(name.to_owned()));
        }
    }
}
