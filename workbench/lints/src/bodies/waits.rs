//! Loops with requests that nothing in them ends: what their conditions read never changes.

use super::flow::Flow;
use super::loops::{leads_away, limit_of, start_of, step_of};
use crate::expressions::calls::{number_of_argument, target_of_argument};
use crate::expressions::operands::referred;
use crate::expressions::walk::Walk;
use crate::instrument::variable_of;
use crate::kind::MethodKind;
use crate::source::TokenIndex;
use crate::visit::{Visitor, visit_expression, visit_statement};
use edd_arithmetic::operate;
use edd_constants::evaluate;
use edd_instructions::Sort;
use edd_syntax::expr::Expr;
use edd_syntax::operators::{Builtin, Comparison, Operator, RequestKind};
use edd_syntax::reference::Target;
use edd_syntax::stmt::{Part, Stmt};

/// What the nodes of a loop do.
#[derive(Default)]
pub(super) struct Doings {
    reads: Vec<Target>,
    pub(super) sets: Vec<Target>,
    /// Whether a `break`, a `return` or an abort may end it.
    pub(super) ends: bool,
    asks: bool,
    /// Whether a request may give variables other values.
    refreshes: bool,
    /// The numbers of the commands that are sent, with those of their transactions.
    sent: Vec<(Option<i64>, Option<i64>, usize)>,
    /// Whether what it reads may be any variable.
    reads_elements: bool,
    /// Whether a `continue` may begin its next turn.
    continues: bool,
}

impl<'t> Visitor<'t> for Doings {
    fn expression(&mut self, e: &'t Expr<Target>, _: Sort) {
        match e {
            Expr::Reference(target) => self.reads.push(*target),
            Expr::Indexed(..) => self.reads_elements = true,
            Expr::Assign(to, _) | Expr::CompoundAssign(_, to, _) | Expr::Increment(_, to) => {
                self.sets.push(*to);
            }
            Expr::Call {
                function: Target::Function(function),
                arguments,
                ..
            } => match function {
                Builtin::Ask(request) => {
                    self.asks = true;
                    match request {
                        RequestKind::SendCommand | RequestKind::SendCommandTrans => {
                            let number = |place| number_of_argument(arguments, place);
                            self.sent.push((number(0), number(1), arguments.len()));
                        }
                        RequestKind::PutMessage | RequestKind::Acknowledge | RequestKind::Delay => {
                        }
                        _ => self.refreshes = true,
                    }
                }
                Builtin::Iassign | Builtin::Lassign => {
                    self.sets.extend(target_of_argument(arguments, 0));
                }
                Builtin::Abort | Builtin::ProcessAbort => self.ends = true,
                _ => {}
            },
            _ => {}
        }
    }

    fn statement(&mut self, s: &'t Stmt<Target>) {
        self.ends |= matches!(s, Stmt::Break { .. } | Stmt::Return);
        self.continues |= matches!(s, Stmt::Continue { .. });
    }
}

impl Doings {
    pub(super) fn of(s: &Stmt<Target>) -> Doings {
        let mut doings = Doings::default();
        visit_statement(s, &mut doings);
        doings
    }

    pub(super) fn of_expression(e: &Expr<Target>) -> Doings {
        let mut doings = Doings::default();
        visit_expression(e, Sort::Method, &mut doings);
        doings
    }

    /// Whether the reply of a command that is sent may have one of these variables.
    fn receives_any(&self, targets: &[Target], walk: &Walk<'_, '_>) -> bool {
        let mut variables = targets.iter().copied().filter_map(variable_of);
        variables.any(|variable| self.receives(variable, walk))
    }

    // Whether the reply of a command that is sent may have a variable: that of one that is not known may, and so
    // may that of a transaction which has nothing yet.
    fn receives(&self, variable: u16, walk: &Walk<'_, '_>) -> bool {
        self.sent.iter().any(|(command, transaction, count)| {
            let is_known = *count == 1 || transaction.is_some();
            let known = command.filter(|_| is_known);
            let instrument = &walk.context.instrument;
            let exchange = known.and_then(|number| instrument.exchange(number, *transaction));
            exchange.is_none_or(|one| one.received.contains(variable) || one.is_empty())
        })
    }

    pub(super) fn asks(&self) -> bool {
        self.asks
    }

    /// Whether something is set, asked for or ended.
    pub(super) fn acts(&self) -> bool {
        self.ends || self.asks || !self.sets.is_empty()
    }
}

/// How the nodes of a loop set what its condition compares.
struct Steps {
    place: Target,
    comparison: Comparison,
    lead_away: bool,
    do_other: bool,
}

impl<'t> Visitor<'t> for Steps {
    fn expression(&mut self, e: &'t Expr<Target>, _: Sort) {
        let (Expr::Assign(to, _) | Expr::CompoundAssign(_, to, _) | Expr::Increment(_, to)) = e
        else {
            return;
        };
        if *to != self.place {
            return;
        }
        match step_of(Some(e)) {
            Some((_, step)) if leads_away(self.comparison, step) => self.lead_away = true,
            _ => self.do_other = true,
        }
    }
}

/// Checks a `while` or `do` whose condition compares a local with a constant, and all of whose steps
/// lead away from that.
pub(super) fn check_away(
    condition: &Expr<Target>,
    body: &Stmt<Target>,
    at: TokenIndex,
    walk: &mut Walk<'_, '_>,
) {
    let Some((place @ Target::Local(_), comparison, limit)) = limit_of(Some(condition)) else {
        return;
    };
    let mut steps = Steps {
        place,
        comparison,
        lead_away: false,
        do_other: false,
    };
    visit_expression(condition, Sort::Method, &mut steps);
    visit_statement(body, &mut steps);
    let is_constant = evaluate(limit, Sort::Method).number().is_some();
    if is_constant && steps.lead_away && !steps.do_other && !Doings::of(body).ends {
        walk.findings.add(at, MethodKind::CountsAway);
    }
}

/// Checks a `for` whose body always leaves it, so that its third part is never reached.
pub(super) fn check_single_turn(
    flow: Flow,
    update: Option<&Expr<Target>>,
    body: &Stmt<Target>,
    at: TokenIndex,
    walk: &mut Walk<'_, '_>,
) {
    if flow.ends.is_some() && update.is_some() && !Doings::of(body).continues {
        walk.findings.add(at, MethodKind::SingleTurn);
    }
}

// The number at which a counter stays that is multiplied, divided or shifted.
fn stays_at(
    initial: Option<&Expr<Target>>,
    update: Option<&Expr<Target>>,
    body: &Stmt<Target>,
) -> Option<i64> {
    let (place, start) = start_of(initial)?;
    let (operator, to, value) = match update? {
        Expr::CompoundAssign(operator, to, value) => (*operator, *to, &**value),
        Expr::Assign(to, value) => match &**value {
            Expr::Binary(operator, first, second) if referred(first) == Some(*to) => {
                (*operator, *to, &**second)
            }
            _ => return None,
        },
        _ => return None,
    };
    let is_scaled = !matches!(operator, Operator::Add | Operator::Subtract);
    let by = evaluate(value, Sort::Method).number()?;
    let stays = operate(Sort::Method, operator, start, by) == Ok(start);
    let is_kept = || !Doings::of(body).sets.contains(&place);
    (is_scaled && to == place && stays && is_kept()).then_some(start)
}

/// Checks a loop that makes requests: whether what its condition reads can change in its turns.
pub(super) fn check_wait(
    condition: Option<&Expr<Target>>,
    update: Option<&Expr<Target>>,
    body: &Stmt<Target>,
    at: TokenIndex,
    walk: &mut Walk<'_, '_>,
) {
    let Some(condition) = condition else {
        return;
    };
    let mut test = Doings::default();
    visit_expression(condition, Sort::Method, &mut test);
    let mut all = Doings::default();
    visit_statement(body, &mut all);
    for e in [Some(condition), update].into_iter().flatten() {
        visit_expression(e, Sort::Method, &mut all);
    }
    let is_still = |target: &Target| !all.sets.contains(target);
    let may_end = all.ends || test.asks || test.reads_elements || !test.reads.iter().all(is_still);
    let Some(first) = test.reads.first().filter(|_| all.asks && !may_end) else {
        return;
    };
    let variable = test.reads.iter().copied().find_map(variable_of);
    match (first, variable) {
        (_, Some(variable)) if !all.refreshes && !all.receives_any(&test.reads, walk) => {
            let name = walk.context.instrument.name_of(variable);
            walk.findings.add(at, MethodKind::UnrefreshedWait(name));
        }
        (Target::Local(_), None) => walk.findings.add(at, MethodKind::UnmovedCounter),
        _ => {}
    }
}

// The loops in the body of a `for` that count the same. What leaves the loop does not help where an inner
// one right in the body always counts to its end.
fn check_shared(body: &Stmt<Target>, counted: Target, walk: &mut Walk<'_, '_>) {
    if !Doings::of(body).ends {
        return visit_statement(body, &mut Shared { counted, walk });
    }
    let Stmt::Block(parts) = body else {
        return;
    };
    for part in parts {
        if let Part::Statement(s @ Stmt::For { body: inner, .. }) = part
            && !Doings::of(inner).ends
        {
            Shared { counted, walk }.statement(s);
        }
    }
}

/// Checks the head of a `for` that counts a local: whether its body counts it too, and whether it
/// comes to its limit.
pub(super) fn check_counting(
    [initial, condition, update]: [Option<&Expr<Target>>; 3],
    body: &Stmt<Target>,
    at: TokenIndex,
    walk: &mut Walk<'_, '_>,
) {
    if let Some(number) = stays_at(initial, update, body) {
        return walk.findings.add(at, MethodKind::StaysAt(number));
    }
    let Some((counted, step)) = step_of(update) else {
        return;
    };
    if let Stmt::Block(parts) = body {
        check_counted_twice(parts, counted, walk);
    }
    check_shared(body, counted, walk);
    if step == 0 {
        return walk.findings.add(at, MethodKind::CountsByZero);
    }
    let limit = limit_of(condition);
    let (Some((started, start)), Some((compared, Comparison::NotEqual, limit))) =
        (start_of(initial), limit)
    else {
        return;
    };
    let doings = Doings::of(body);
    let is_plain = started == counted && compared == counted && !doings.sets.contains(&counted);
    let Some(limit) = evaluate(limit, Sort::Method).number().filter(|_| is_plain) else {
        return;
    };
    let distance = limit.saturating_sub(start);
    let is_met = distance.checked_rem(step) == Some(0) && distance.signum() == step.signum();
    if distance != 0 && !is_met && !doings.ends {
        walk.findings.add(at, MethodKind::SkippedLimit(limit));
    }
}

/// The loops in the body of a `for` that counts a place.
struct Shared<'a, 'w, 'd> {
    counted: Target,
    walk: &'a mut Walk<'w, 'd>,
}

impl<'t> Visitor<'t> for Shared<'_, '_, '_> {
    fn statement(&mut self, s: &'t Stmt<Target>) {
        let Stmt::For {
            initial, update, ..
        } = s
        else {
            return;
        };
        let is_started = matches!(initial, Some(Expr::Assign(to, _)) if *to == self.counted);
        let counted = step_of(update.as_ref()).map(|(target, _)| target);
        let at = self.walk.context.places.statement(s).sign;
        let is_told = self
            .walk
            .findings
            .is_reported(self.walk.context.source.span(at));
        if is_started && counted == Some(self.counted) && !is_told {
            self.walk.findings.add(at, MethodKind::SharedCounter);
        }
    }
}

fn check_counted_twice(parts: &[Part<Target>], counted: Target, walk: &mut Walk<'_, '_>) {
    for part in parts {
        let Part::Statement(Stmt::Evaluate(e)) = part else {
            continue;
        };
        let is_step = step_of(Some(e)).is_some_and(|(target, _)| target == counted);
        let is_start = start_of(Some(e)).is_some_and(|(target, _)| target == counted);
        if is_step || is_start {
            let at = walk.context.places.sign(e);
            walk.findings.add(at, MethodKind::CountedTwice);
        }
    }
}
