//! The labels of a `switch`, and a `;` before a block.

use super::flow::Flow;
use crate::expressions::operands::check_label;
use crate::expressions::walk::Walk;
use crate::kind::MethodKind;
use crate::source::{TokenIndex, index};
use edd_syntax::reference::Target;
use edd_syntax::stmt::{Part, Stmt};

/// Checks a label after statements that go on with it. Where it has no more than a `break` nothing
/// is lost, and a comment says that it is meant.
pub(super) fn check_fall(
    flow: Flow,
    label: TokenIndex,
    next: Option<&Part<Target>>,
    walk: &mut Walk<'_, '_>,
) {
    let is_short = matches!(
        next,
        Some(Part::Statement(Stmt::Break { .. } | Stmt::Return))
    );
    let is_remarked = flow.is_remarked || walk.context.source.has_comment_before(label);
    if flow.ends.is_none() && !is_short && !is_remarked {
        walk.findings.add(label, MethodKind::FallsThrough);
    }
}

/// Checks whether a `;` is between the head of a loop and the block that looks like its body.
pub(super) fn check_block_after(
    head: Option<TokenIndex>,
    s: &Stmt<Target>,
    walk: &mut Walk<'_, '_>,
) {
    if let (Some(at), Stmt::Block(_)) = (head, s) {
        walk.findings.add(at, MethodKind::DetachedBlock);
    }
}

/// Checks what a label says of what the `switch` is over.
pub(super) fn check_label_part(part: &Part<Target>, walk: &mut Walk<'_, '_>) {
    if let Part::CaseLabel { at, label } = part {
        check_label(*label, index(*at), walk);
    }
}
