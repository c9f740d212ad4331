//! Statements that are laid out as if they were part of another one.

use crate::expressions::walk::Walk;
use crate::kind::MethodKind;
use crate::source::TokenIndex;
use edd_syntax::reference::Target;
use edd_syntax::stmt::{Part, Stmt};

// The last statement in a statement without braces, as the body of a loop.
fn inner(s: &Stmt<Target>) -> Option<&Stmt<Target>> {
    match s {
        Stmt::If(_, inner) | Stmt::While(_, inner) => Some(inner),
        Stmt::For { body, .. } => Some(body),
        Stmt::IfElse(_, _, otherwise) => Some(otherwise),
        _ => None,
    }
}

// A statement at the left of the next one, which is as far to the right as what is in the first, or in
// the last statement of that, and so on. An `if` may stand right behind its `else`.
fn looks_inner(s: &Stmt<Target>, next: TokenIndex, walk: &Walk<'_, '_>) -> Option<bool> {
    let (source, places) = (walk.context.source, &walk.context.places);
    let outer = source.indentation(places.statement(s).sign)?;
    let behind = source.indentation(next)?;
    let is_behind = outer.len() < behind.len() && behind.starts_with(outer);
    let mut within = std::iter::successors(inner(s), |s| inner(s))
        .take_while(|inner| !matches!(inner, Stmt::Block(_) | Stmt::Empty));
    let is_level = |s: &Stmt<Target>| source.indentation(places.statement(s).sign) == Some(behind);
    Some(is_behind && within.any(is_level))
}

fn check_pair(s: &Stmt<Target>, next: &Part<Target>, walk: &mut Walk<'_, '_>) {
    let Part::Statement(next) = next else {
        return;
    };
    let at = walk.context.places.statement(next).sign;
    if looks_inner(s, at, walk) == Some(true) {
        let head = walk.context.places.statement(s).sign;
        let word = walk.context.source.word(head).to_owned();
        walk.findings
            .add_beside(at, MethodKind::LooksInner(word), head);
    }
}

/// Checks how the statements of a block are laid out.
pub(super) fn check_layout(parts: &[Part<Target>], walk: &mut Walk<'_, '_>) {
    for pair in parts.windows(2) {
        if let [Part::Statement(s), next] = pair {
            check_pair(s, next, walk);
        }
    }
}

/// Checks whether the `else` of an inner `if` stands below the outer one.
pub(super) fn check_else(outer: TokenIndex, first: &Stmt<Target>, walk: &mut Walk<'_, '_>) {
    let Stmt::IfElse(_, then, _) = first else {
        return;
    };
    let (source, places) = (walk.context.source, &walk.context.places);
    let inner = source.indentation(places.statement(first).sign);
    let word = places.statement(then).extent.end;
    let own = source.indentation(word);
    if own.is_some() && own == source.indentation(outer) && own != inner {
        walk.findings
            .add_beside(word, MethodKind::DanglingElse, outer);
    }
}
