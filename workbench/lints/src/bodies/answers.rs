//! Branches on the answer of a command that do where it has failed what is meant for where it has succeeded,
//! or the other way round.

use super::choices::Answers;
use super::flow::is_abort;
use super::waits::Doings;
use crate::context::Context;
use crate::expressions::operands::referred;
use crate::expressions::stores::without_parentheses;
use crate::kind::MethodKind;
use crate::source::TokenIndex;
use crate::texts::variants::Variants;
use crate::traits::quoted;
use crate::visit::{Visitor, visit_parts};
use crate::warning::Findings;
use edd_constants::evaluate;
use edd_instructions::Sort;
use edd_syntax::expr::{Argument, Expr};
use edd_syntax::operators::{Builtin, Comparison, RequestKind, UnaryOperator};
use edd_syntax::reference::Target;
use edd_syntax::stmt::{Part, Stmt};

/// What is said of a command that has failed.
const FAILURES: [&str; 24] = [
    "failed",
    "failure",
    "refused",
    "rejected",
    "no answer",
    "no response",
    "not answer",
    "not respond",
    "not written",
    "not read",
    "not saved",
    "not stored",
    "not sent",
    "not set",
    "unsuccessful",
    "fehlgeschlagen",
    "abgelehnt",
    "keine antwort",
    "antwortet nicht",
    "nicht geschrieben",
    "nicht gelesen",
    "nicht gespeichert",
    "nicht gesendet",
    "nicht gesetzt",
];

/// What is said of one that has succeeded.
const SUCCESSES: [&str; 17] = [
    "success",
    "succeeded",
    "is written",
    "was written",
    "been written",
    "is saved",
    "was saved",
    "been saved",
    "is stored",
    "is set",
    "is done",
    "accepted",
    "completed",
    "erfolgreich",
    "ist geschrieben",
    "ist gespeichert",
    "angenommen",
];

/// What denies what is said.
const DENIALS: [&str; 10] = [
    "not ", "n't ", "nicht", "no ", "un", "kein", "before", "until", "bis ", "when ",
];

/// What a branch says.
#[derive(Clone, Copy, PartialEq, Eq)]
enum Tone {
    Success,
    Failure,
}

// What the first language of a text says of a command.
fn tone_of(text: &str) -> Option<Tone> {
    let first = Variants::of(text.as_bytes()).next()?;
    let words = str::from_utf8(first.words).ok()?.to_lowercase();
    let has = |all: &[&str]| all.iter().any(|part| words.contains(part));
    if has(&FAILURES) {
        return (!has(&SUCCESSES)).then_some(Tone::Failure);
    }
    (has(&SUCCESSES) && !has(&DENIALS)).then_some(Tone::Success)
}

// The expressions that are statements of a branch.
fn expressions_of(branch: &Stmt<Target>) -> Vec<&Expr<Target>> {
    match branch {
        Stmt::Evaluate(e) => vec![e],
        Stmt::Block(parts) => parts
            .iter()
            .filter_map(|part| match part {
                Part::Statement(Stmt::Evaluate(e)) => Some(e),
                _ => None,
            })
            .collect(),
        _ => Vec::new(),
    }
}

// What a branch says by its first message, and where.
fn said_in(branch: &Stmt<Target>, context: &Context<'_>) -> Option<(Tone, TokenIndex)> {
    expressions_of(branch).into_iter().find_map(|e| {
        let Expr::Call {
            function:
                Target::Function(Builtin::Ask(RequestKind::PutMessage | RequestKind::Acknowledge)),
            arguments,
            ..
        } = e
        else {
            return None;
        };
        match arguments.first()? {
            Argument::Text(text) => Some((tone_of(quoted(text)?)?, context.places.sign(e))),
            Argument::Value(_) => None,
        }
    })
}

// The abort that a branch is, where it does nothing else.
fn aborts_alone(branch: &Stmt<Target>, context: &Context<'_>) -> Option<TokenIndex> {
    let is_block = match branch {
        Stmt::Block(parts) => parts.len() == 1,
        Stmt::Evaluate(_) => true,
        _ => false,
    };
    match &*expressions_of(branch) {
        [e] if is_block && is_abort(e) => Some(context.places.sign(e)),
        _ => None,
    }
}

/// The conditions of a body on the answers of its commands.
struct Judged<'c, 'd, 'f> {
    answers: Answers,
    context: &'c Context<'d>,
    findings: &'f mut Findings<'d>,
}

impl Judged<'_, '_, '_> {
    fn is_answer(&self, e: &Expr<Target>) -> bool {
        let is_command = |e: &Expr<Target>| {
            matches!(
                without_parentheses(e),
                Expr::Call {
                    function: Target::Function(Builtin::Ask(
                        RequestKind::SendCommand | RequestKind::SendCommandTrans
                    )),
                    ..
                }
            )
        };
        is_command(e) || referred(e).is_some_and(|local| self.answers.are_codes(local))
    }

    // Whether a condition holds where a command has succeeded, and fails elsewhere, or the other way round.
    fn holds_on_success(&self, condition: &Expr<Target>) -> Option<bool> {
        match without_parentheses(condition) {
            Expr::Unary(UnaryOperator::Not, inner) => {
                self.holds_on_success(inner).map(|holds| !holds)
            }
            Expr::Compare(comparison, first, second) if self.is_answer(first) => {
                let is_zero = evaluate(second, Sort::Method).number() == Some(0);
                match comparison {
                    Comparison::Equal => is_zero.then_some(true),
                    Comparison::NotEqual | Comparison::Greater => is_zero.then_some(false),
                    _ => None,
                }
            }
            e => self.is_answer(e).then_some(false),
        }
    }

    fn check(&mut self, on_success: Option<&Stmt<Target>>, on_failure: Option<&Stmt<Target>>) {
        let said = |branch: Option<&Stmt<Target>>| said_in(branch?, self.context);
        let (success, failure) = (said(on_success), said(on_failure));
        // An abort alone, where nothing is done elsewhere.
        let aborted = on_success.and_then(|branch| aborts_alone(branch, self.context));
        let kind = match (success, failure) {
            (Some((Tone::Failure, at)), other)
                if other.is_none_or(|(tone, _)| tone != Tone::Failure) =>
            {
                Some((at, MethodKind::FailsOnSuccess))
            }
            (None, Some((Tone::Success, at))) => Some((at, MethodKind::SucceedsOnFailure)),
            _ => aborted.map(|at| (at, MethodKind::FailsOnSuccess)),
        };
        if let Some((at, kind)) = kind {
            self.findings.add(at, kind);
        }
    }
}

impl Judged<'_, '_, '_> {
    // A `switch` over the answer of a command whose case 0 is an abort alone.
    fn check_cases(&mut self, on: &Expr<Target>, parts: &[Part<Target>]) {
        if !self.is_answer(on) {
            return;
        }
        let zero = parts
            .iter()
            .position(|part| matches!(part, Part::CaseLabel { label: 0, .. }));
        let next = zero.and_then(|zero| parts.get(zero.saturating_add(1)));
        if let Some(Part::Statement(s @ Stmt::Evaluate(e))) = next
            && is_abort(e)
        {
            let at = self.context.places.statement(s).extent.start;
            self.findings.add(at, MethodKind::FailsOnSuccess);
        }
    }

    // A loop that only a failure ends.
    fn check_loop(&mut self, condition: &Expr<Target>, body: &Stmt<Target>) {
        let goes_on = self.holds_on_success(condition) == Some(true);
        if goes_on && !Doings::of(body).ends {
            let at = self.context.places.sign(without_parentheses(condition));
            self.findings.add(at, MethodKind::LoopsOnSuccess);
        }
    }
}

impl<'t> Visitor<'t> for Judged<'_, '_, '_> {
    fn statement(&mut self, s: &'t Stmt<Target>) {
        match s {
            Stmt::Switch(on, parts) => self.check_cases(on, parts),
            Stmt::While(condition, body) | Stmt::Do(body, condition) => {
                self.check_loop(condition, body);
            }
            _ => {}
        }
        let (condition, first, second) = match s {
            Stmt::If(condition, first) => (condition, Some(&**first), None),
            Stmt::IfElse(condition, first, second) => (condition, Some(&**first), Some(&**second)),
            _ => return,
        };
        match self.holds_on_success(condition) {
            Some(true) => self.check(first, second),
            Some(false) => self.check(second, first),
            None => {}
        }
    }
}

/// Checks what a body does on the answers of its commands.
pub(super) fn check_answers<'d>(
    parts: &[Part<Target>],
    context: &Context<'d>,
    findings: &mut Findings<'d>,
) {
    let mut judged = Judged {
        answers: Answers::in_parts(parts),
        context,
        findings,
    };
    visit_parts(parts, &mut judged);
}
