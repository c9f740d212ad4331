//! Statements: what is never reached, what does nothing, and cases that go on with the next.

use super::cases::{check_block_after, check_fall, check_label_part};
use super::flow::{Flow, counts, is_abort, is_empty_block};
use super::layout::{check_else, check_layout};
use super::loops::{Head, Loop, check_head, check_loop, has_no_body, step_of};
use super::stores::check_stores;
use super::turns::{check_end, check_same_turn};
use super::waits::{check_away, check_counting, check_single_turn, check_wait};
use crate::expressions::operands::selected_variable;
use crate::expressions::stores::{check_wrapped, without_parentheses};
use crate::expressions::walk::Walk;
use crate::expressions::{Test, check_condition, check_expression, check_tested};
use crate::gaps::{Cases, check_shifted};
use crate::kind::MethodKind;
use crate::source::{TokenIndex, index};
use edd_syntax::expr::Expr;
use edd_syntax::operators::{Builtin, RequestKind};
use edd_syntax::reference::Target;
use edd_syntax::stmt::{Declarator, Part, Stmt};

// Does a step of a walk, and returns whether the host is asked in it.
fn asks_in<'w, 'd>(walk: &mut Walk<'w, 'd>, step: impl FnOnce(&mut Walk<'w, 'd>)) -> bool {
    let before = walk.asks;
    step(walk);
    before != walk.asks
}

fn check_declarators(declarators: &[Declarator<Target>], walk: &mut Walk<'_, '_>) -> bool {
    asks_in(walk, |walk| {
        for declarator in declarators {
            if let Some(e) = &declarator.value {
                check_wrapped(e, walk);
                check_expression(e, false, walk);
                walk.write(declarator.place);
            }
        }
    })
}

// A statement of a block, whose flow so far goes on.
fn check_next(s: &Stmt<Target>, so_far: Flow, walk: &mut Walk<'_, '_>) -> Flow {
    let is_reported = so_far.ends.is_some() && counts(s);
    if let Some(end) = so_far.ends.filter(|_| is_reported) {
        let word = walk.context.source.word(end).to_owned();
        walk.findings.add(end, MethodKind::Unreachable(word));
    }
    let flow = check_statement(s, walk);
    Flow {
        ends: if is_reported {
            flow.ends
        } else {
            so_far.ends.or(flow.ends)
        },
        breaks: so_far.breaks || flow.breaks,
        leaves: so_far.leaves || flow.leaves,
        is_remarked: flow.is_remarked,
    }
}

/// What was seen so far of what is between braces.
#[derive(Default)]
struct SoFar {
    flow: Flow,
    /// The branch or the loop without a body right before.
    head: Option<TokenIndex>,
    /// Whether that is so of any branch or loop.
    lacks_body: bool,
    /// Whether there is a statement behind the last label.
    has_statement: bool,
    is_dead: bool,
}

/// Checks what is between braces, of which the last is at a token.
pub(super) fn check_parts(
    parts: &[Part<Target>],
    close: TokenIndex,
    walk: &mut Walk<'_, '_>,
) -> Flow {
    check_layout(parts, walk);
    check_stores(parts, walk);
    let mut so_far = SoFar::default();
    for (number, part) in parts.iter().enumerate() {
        let next = parts.get(number.saturating_add(1));
        match part {
            Part::Declare(declarators) => {
                so_far.flow.leaves |= check_declarators(declarators, walk);
                so_far.head = None;
                so_far.lacks_body = false;
            }
            Part::Statement(s) => check_part(s, next, &mut so_far, walk),
            Part::CaseLabel { at, .. } | Part::DefaultLabel { at } => {
                if so_far.has_statement && !so_far.is_dead {
                    check_fall(so_far.flow, index(*at), next, walk);
                }
                check_label_part(part, walk);
                so_far.flow.ends = None;
                so_far.has_statement = false;
                so_far.is_dead = false;
            }
        }
    }
    so_far.flow.is_remarked = walk.context.source.has_comment_before(close);
    so_far.flow
}

// A statement between braces.
fn check_part(
    s: &Stmt<Target>,
    next: Option<&Part<Target>>,
    so_far: &mut SoFar,
    walk: &mut Walk<'_, '_>,
) {
    check_block_after(so_far.head, s, walk);
    // A block behind a branch or a loop without a body is meant to be that.
    let is_body = so_far.lacks_body && matches!(s, Stmt::Block(_));
    so_far.head = has_no_body(s).then_some(walk.context.places.statement(s).sign);
    let is_empty_if = matches!(s, Stmt::If(_, body) if matches!(**body, Stmt::Empty));
    so_far.lacks_body = so_far.head.is_some() || is_empty_if;
    so_far.is_dead = so_far.is_dead || so_far.flow.ends.is_some();
    let ends = so_far.flow.ends;
    so_far.flow = check_next(s, so_far.flow, walk);
    if is_body {
        so_far.flow.ends = ends;
    }
    check_empty_else(s, next, walk);
    check_end(s, next, walk);
    so_far.has_statement = true;
}

// An `else` without a statement. Where a block follows, a ; is before it.
fn check_empty_else(s: &Stmt<Target>, next: Option<&Part<Target>>, walk: &mut Walk<'_, '_>) {
    let Stmt::IfElse(_, _, otherwise) = s else {
        return;
    };
    let is_block = matches!(next, Some(Part::Statement(Stmt::Block(_))));
    let at = walk.context.places.statement(otherwise).sign;
    let is_remarked = walk.context.source.has_comment_before(at);
    if matches!(**otherwise, Stmt::Empty) && !is_block && !is_remarked {
        walk.findings
            .add(at.saturating_sub(1), MethodKind::EmptyElse);
    }
}

// Whether nothing is done with what an expression gives. A plain number may be what is left of a
// macro, and a comparison has a warning of its own.
fn is_dropped(e: &Expr<Target>) -> bool {
    !matches!(without_parentheses(e), Expr::Literal(_) | Expr::Compare(..))
}

// An expression as a statement: an abort ends what comes after it.
fn check_evaluated(e: &Expr<Target>, at: TokenIndex, walk: &mut Walk<'_, '_>) -> Flow {
    let before = walk.acts;
    let asks = asks_in(walk, |walk| check_expression(e, true, walk));
    let is_operator = matches!(without_parentheses(e), Expr::Unary(..) | Expr::Binary(..));
    if before == walk.acts && is_dropped(e) {
        walk.findings.add(at, MethodKind::DroppedValue);
    } else if is_operator {
        walk.findings
            .add(walk.context.places.sign(e), MethodKind::DroppedOperator);
    }
    if let Expr::Call {
        function: Target::Function(Builtin::Ask(RequestKind::SelectFromList)),
        ..
    } = without_parentheses(e)
    {
        walk.findings.add(at, MethodKind::DroppedChoice);
    }
    let aborts = is_abort(e);
    Flow {
        ends: aborts.then_some(at),
        leaves: asks || aborts,
        ..Flow::default()
    }
}

fn check_if(
    condition: &Expr<Target>,
    first: &Stmt<Target>,
    at: TokenIndex,
    walk: &mut Walk<'_, '_>,
) -> Flow {
    let asks = asks_in(walk, |walk| {
        check_condition(condition, at, Test::Condition, walk);
    });
    if let Stmt::Empty = first {
        walk.findings.add(at, MethodKind::EmptyStatement);
    }
    check_else(at, first, walk);
    let flow = check_statement(first, walk);
    if is_empty_block(first) && !asks && !flow.is_remarked {
        walk.findings.add(at, MethodKind::EmptyBlock);
    }
    Flow::joined(at, asks, flow, Flow::default())
}

fn check_if_else(
    condition: &Expr<Target>,
    branches: [&Stmt<Target>; 2],
    at: TokenIndex,
    walk: &mut Walk<'_, '_>,
) -> Flow {
    let asks = asks_in(walk, |walk| {
        check_condition(condition, at, Test::Condition, walk);
    });
    let is_empty = matches!(branches, [Stmt::Empty, _])
        || branches.first().is_some_and(|first| is_empty_block(first));
    let [first, second] = branches.map(|branch| check_statement(branch, walk));
    if is_empty && !asks && !first.is_remarked {
        walk.findings.add(at, MethodKind::EmptyThen);
    }
    Flow::joined(at, asks, first, second)
}

fn open_loop(walk: &mut Walk<'_, '_>) {
    walk.loops = walk.loops.saturating_add(1);
}

fn close_loop(walk: &mut Walk<'_, '_>) {
    walk.loops = walk.loops.saturating_sub(1);
}

fn check_while(
    condition: &Expr<Target>,
    body: &Stmt<Target>,
    at: TokenIndex,
    walk: &mut Walk<'_, '_>,
) -> Flow {
    let from = walk.uses.len();
    open_loop(walk);
    let asks = asks_in(walk, |walk| check_tested(condition, Test::Condition, walk));
    let tested = walk.uses.len();
    let flow = check_statement(body, walk);
    close_loop(walk);
    let looped = Loop {
        at,
        test_at: at,
        condition: Some(condition),
        is_do: false,
        asks,
        from,
        test: from..tested,
    };
    check_loop(&looped, flow, walk)
}

fn check_do(
    body: &Stmt<Target>,
    condition: &Expr<Target>,
    at: TokenIndex,
    walk: &mut Walk<'_, '_>,
) -> Flow {
    let from = walk.uses.len();
    open_loop(walk);
    let flow = check_statement(body, walk);
    let test = walk.uses.len();
    let asks = asks_in(walk, |walk| check_tested(condition, Test::Condition, walk));
    close_loop(walk);
    let looped = Loop {
        at,
        // The body ends before `while`.
        test_at: walk.context.places.statement(body).extent.end,
        condition: Some(condition),
        is_do: true,
        asks,
        from,
        test: test..walk.uses.len(),
    };
    check_loop(&looped, flow, walk)
}

fn check_for(head: Head<'_>, body: &Stmt<Target>, at: TokenIndex, walk: &mut Walk<'_, '_>) -> Flow {
    let [initial, condition, update] = head.map(Option::as_ref);
    if let Some(e) = initial {
        check_expression(e, true, walk);
    }
    open_loop(walk);
    let from = walk.uses.len();
    let before = walk.asks;
    if let Some(e) = condition {
        check_tested(e, Test::Condition, walk);
    }
    let tested = walk.uses.len();
    if let Some(e) = update {
        check_expression(e, true, walk);
        // What a head counts is there for the loop, whatever its condition reads.
        if let Some((counted, _)) = step_of(update) {
            walk.read(counted);
        }
    }
    let asks = before != walk.asks;
    let begin = walk.uses.len();
    let flow = check_statement(body, walk);
    check_single_turn(flow, update, body, at, walk);
    close_loop(walk);
    check_head(at, head, begin, matches!(body, Stmt::Empty), walk);
    let looped = Loop {
        at,
        test_at: at,
        condition,
        is_do: false,
        asks,
        from,
        test: from..tested,
    };
    check_loop(&looped, flow, walk)
}

fn check_switch(
    on: &Expr<Target>,
    parts: &[Part<Target>],
    [at, close]: [TokenIndex; 2],
    walk: &mut Walk<'_, '_>,
) -> Flow {
    let asks = asks_in(walk, |walk| check_condition(on, at, Test::Selection, walk));
    if parts.is_empty() {
        walk.findings.add(at, MethodKind::EmptySwitch);
    }
    walk.selected.push(selected_variable(on));
    let flow = check_parts(parts, close, walk);
    walk.selected.pop();
    let has_default = parts
        .iter()
        .any(|part| matches!(part, Part::DefaultLabel { .. }));
    let labels = parts.iter().filter_map(|part| match part {
        Part::CaseLabel { at, label } => Some((*label, index(*at))),
        _ => None,
    });
    let cases = Cases {
        labels: labels.collect(),
        has_default,
    };
    check_shifted(selected_variable(on), &cases, walk.context, walk.findings);
    Flow {
        ends: (has_default && !flow.breaks && flow.ends.is_some()).then_some(at),
        leaves: asks || flow.leaves,
        ..Flow::default()
    }
}

fn check_statement(s: &Stmt<Target>, walk: &mut Walk<'_, '_>) -> Flow {
    let place = walk.context.places.statement(s);
    let (at, close) = (place.sign, place.extent.end.saturating_sub(1));
    match s {
        Stmt::Empty => Flow::default(),
        Stmt::Evaluate(e) => check_evaluated(e, at, walk),
        Stmt::Block(parts) => check_parts(parts, close, walk),
        Stmt::If(condition, first) => check_if(condition, first, at, walk),
        Stmt::IfElse(condition, first, otherwise) => {
            check_if_else(condition, [first, otherwise], at, walk)
        }
        Stmt::While(condition, body) => {
            check_wait(Some(condition), None, body, at, walk);
            check_away(condition, body, at, walk);
            check_same_turn(condition, body, walk);
            check_while(condition, body, at, walk)
        }
        Stmt::Do(body, condition) => {
            check_wait(Some(condition), None, body, at, walk);
            check_away(condition, body, at, walk);
            check_do(body, condition, at, walk)
        }
        Stmt::For {
            initial,
            condition,
            update,
            body,
        } => {
            let head = [initial, condition, update];
            check_wait(condition.as_ref(), update.as_ref(), body, at, walk);
            check_counting(head.map(Option::as_ref), body, at, walk);
            check_for(head, body, at, walk)
        }
        Stmt::Switch(on, parts) => check_switch(on, parts, [at, close], walk),
        Stmt::Break { .. } => Flow {
            breaks: true,
            ..Flow::leading_on(at)
        },
        Stmt::Continue { .. } => Flow::leading_on(at),
        Stmt::Return => Flow {
            leaves: true,
            ..Flow::leading_on(at)
        },
    }
}
