//! Choices that a list does not have, and codes that a command does not list, in comparisons of the local
//! that keeps the answer.

use crate::context::Context;
use crate::expressions::calls::number_of_argument;
use crate::expressions::choices::count_choices;
use crate::expressions::operands::referred;
use crate::expressions::slips::LISTED_CODES;
use crate::expressions::stores::without_parentheses;
use crate::kind::MethodKind;
use crate::source::{TokenIndex, index};
use crate::visit::{Visitor, visit_parts};
use crate::warning::Findings;
use edd_arithmetic::holds;
use edd_constants::evaluate;
use edd_instructions::Sort;
use edd_syntax::expr::Expr;
use edd_syntax::operators::{Builtin, Comparison, RequestKind};
use edd_syntax::reference::Target;
use edd_syntax::stmt::{Part, Stmt};
use std::collections::{HashMap, HashSet};

/// What gave an answer.
#[derive(Clone, Copy, PartialEq, Eq)]
enum Asked {
    /// A list of so many choices.
    Choices(i64),
    /// The command of a number.
    Command(i64),
}

impl Asked {
    // What gives the answer that an expression is.
    fn by(e: &Expr<Target>) -> Option<Asked> {
        let Expr::Call {
            function: Target::Function(Builtin::Ask(request)),
            arguments,
            ..
        } = without_parentheses(e)
        else {
            return None;
        };
        match request {
            RequestKind::SelectFromList => count_choices(arguments).map(Asked::Choices),
            RequestKind::SendCommand | RequestKind::SendCommandTrans => {
                number_of_argument(arguments, 0).map(Asked::Command)
            }
            _ => None,
        }
    }

    // What gives the answer where one of two does: of lists the longest one counts.
    fn joined(self, other: Asked) -> Option<Asked> {
        match (self, other) {
            (Asked::Choices(one), Asked::Choices(two)) => Some(Asked::Choices(one.max(two))),
            _ => (self == other).then_some(self),
        }
    }

    // What is wrong with a number that the answer is compared with.
    fn wrong(self, number: i64, context: &Context<'_>) -> Option<MethodKind> {
        match self {
            Asked::Choices(choices) => {
                (choices <= number).then_some(MethodKind::MissingChoice(number))
            }
            Asked::Command(command) => {
                let is_lacking = LISTED_CODES.contains(&number)
                    && context.instrument.lacks_code(command, number);
                is_lacking.then_some(MethodKind::UnlistedCode(number, command))
            }
        }
    }
}

/// The locals of a body that keep answers alone, with what gives them.
#[derive(Default)]
pub(super) struct Answers {
    kept: HashMap<u8, Option<Asked>>,
}

impl Answers {
    /// The answers that the locals of a body keep.
    pub(super) fn in_parts(parts: &[Part<Target>]) -> Answers {
        let mut answers = Answers::default();
        visit_parts(parts, &mut answers);
        answers
    }

    /// Whether a local keeps the codes of one command alone.
    pub(super) fn are_codes(&self, place: Target) -> bool {
        let kept = match place {
            Target::Local(slot) => self.kept.get(&slot).copied().flatten(),
            _ => None,
        };
        matches!(kept, Some(Asked::Command(_)))
    }

    fn add(&mut self, target: Target, asked: Option<Asked>) {
        if let Target::Local(slot) = target {
            let known = self.kept.entry(slot).or_insert(asked);
            *known = known.zip(asked).and_then(|(one, other)| one.joined(other));
        }
    }
}

impl<'t> Visitor<'t> for Answers {
    fn expression(&mut self, e: &'t Expr<Target>, _: Sort) {
        match e {
            Expr::Assign(to, value) => self.add(*to, Asked::by(value)),
            Expr::CompoundAssign(_, to, _) | Expr::Increment(_, to) => self.add(*to, None),
            _ => {}
        }
    }

    fn declared(&mut self, place: Target, value: &'t Expr<Target>) {
        // A first value that no choice has says that none was taken.
        self.add(place, Asked::by(value));
    }
}

/// The comparisons of a body.
struct Compared<'c, 'd, 'f> {
    answers: Answers,
    /// The operands of && and ||, which may test both ends of a range.
    joined: HashSet<TokenIndex>,
    context: &'c Context<'d>,
    findings: &'f mut Findings<'d>,
}

impl Compared<'_, '_, '_> {
    fn asked(&self, e: &Expr<Target>) -> Option<Asked> {
        match referred(e)? {
            Target::Local(slot) => *self.answers.kept.get(&slot)?,
            _ => None,
        }
    }
}

// Whether a comparison holds for each of so many choices.
fn holds_for_all(comparison: Comparison, count: i64, second: &Expr<Target>) -> bool {
    let is_order = !matches!(comparison, Comparison::Equal | Comparison::NotEqual);
    let number = evaluate(second, Sort::Method).number();
    let last = count.saturating_sub(1);
    let ends = [0, last];
    is_order && number.is_some_and(|number| ends.iter().all(|one| holds(comparison, *one, number)))
}

impl<'t> Visitor<'t> for Compared<'_, '_, '_> {
    fn expression(&mut self, e: &'t Expr<Target>, _: Sort) {
        if let Expr::LogicalAnd(first, second) | Expr::LogicalOr(first, second) = e {
            let signs = [first, second].map(|e| self.context.places.sign(without_parentheses(e)));
            self.joined.extend(signs);
        }
        let Expr::Compare(comparison, first, second) = e else {
            return;
        };
        if let Some(Asked::Choices(count)) = Asked::by(first)
            && holds_for_all(*comparison, count, second)
        {
            let at = self.context.places.sign(e);
            return self.findings.add(at, MethodKind::EveryChoice);
        }
        let is_told = match comparison {
            Comparison::Equal | Comparison::NotEqual => true,
            // Of an order the number may be the least that is no choice.
            Comparison::GreaterOrEqual | Comparison::Greater => {
                let is_alone = !self.joined.contains(&self.context.places.sign(e));
                is_alone && matches!(self.asked(first), Some(Asked::Choices(_)))
            }
            _ => false,
        };
        if !is_told {
            return;
        }
        let number = evaluate(second, Sort::Method).number();
        let wrong = self
            .asked(first)
            .zip(number)
            .and_then(|(asked, number)| asked.wrong(number, self.context));
        if let Some(kind) = wrong {
            self.findings.add(self.context.places.sign(e), kind);
        }
    }

    fn statement(&mut self, s: &'t Stmt<Target>) {
        let Stmt::Switch(on, parts) = s else {
            return;
        };
        let Some(asked) = self.asked(on).or_else(|| Asked::by(on)) else {
            return;
        };
        for part in parts {
            if let Part::CaseLabel { at, label } = part
                && let Some(kind) = asked.wrong(*label, self.context)
            {
                self.findings.add(index(*at), kind);
            }
        }
    }
}

/// Checks what a body compares the answers of its lists with.
pub(super) fn check_choices<'d>(
    parts: &[Part<Target>],
    context: &Context<'d>,
    findings: &mut Findings<'d>,
) {
    let mut compared = Compared {
        answers: Answers::in_parts(parts),
        joined: HashSet::new(),
        context,
        findings,
    };
    visit_parts(parts, &mut compared);
}
