//! How a method goes on after a statement.

use crate::source::TokenIndex;
use edd_syntax::expr::Expr;
use edd_syntax::operators::Builtin;
use edd_syntax::reference::Target;
use edd_syntax::stmt::Stmt;

/// How a method goes on after a statement.
#[derive(Clone, Copy, Default)]
pub(super) struct Flow {
    /// Where the statement never goes on after itself: the place of what sees to that.
    pub(super) ends: Option<TokenIndex>,
    /// Whether a `break` in it leaves the loop or the `switch` around it.
    pub(super) breaks: bool,
    /// Whether the method may end in it, by itself or since a host that is asked aborts it.
    pub(super) leaves: bool,
    /// Whether a comment stands before its last brace.
    pub(super) is_remarked: bool,
}

impl Flow {
    /// An `if` at a place, with the flows of its two branches.
    pub(super) fn joined(at: TokenIndex, asks: bool, first: Flow, second: Flow) -> Flow {
        Flow {
            ends: (first.ends.is_some() && second.ends.is_some()).then_some(at),
            breaks: first.breaks || second.breaks,
            leaves: asks || first.leaves || second.leaves,
            is_remarked: second.is_remarked,
        }
    }

    /// A statement that leads to another place.
    pub(super) fn leading_on(at: TokenIndex) -> Flow {
        Flow {
            ends: Some(at),
            ..Flow::default()
        }
    }
}

/// Whether an expression is a call that ends the method.
pub(crate) fn is_abort(e: &Expr<Target>) -> bool {
    matches!(
        e,
        Expr::Call {
            function: Target::Function(Builtin::Abort | Builtin::ProcessAbort),
            ..
        }
    )
}

/// Whether a statement that is never reached is worth a warning. A `break` after a `return` is a
/// habit, and so is a `return` after an abort.
pub(super) fn counts(s: &Stmt<Target>) -> bool {
    match s {
        Stmt::Empty | Stmt::Break { .. } | Stmt::Return => false,
        Stmt::Block(parts) => !parts.is_empty(),
        _ => true,
    }
}

/// Whether a statement is braces with nothing between.
pub(super) fn is_empty_block(s: &Stmt<Target>) -> bool {
    matches!(s, Stmt::Block(parts) if parts.is_empty())
}
