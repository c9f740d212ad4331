//! Choices that set a variable of enumerators to another one than the choice is called.

use crate::context::Context;
use crate::expressions::stores::without_parentheses;
use crate::instrument::variable_of;
use crate::kind::MethodKind;
use crate::source::TokenIndex;
use crate::texts::variants::Variants;
use crate::traits::quoted;
use crate::visit::{Visitor, visit_parts};
use crate::warning::Findings;
use edd_constants::evaluate;
use edd_instructions::Sort;
use edd_syntax::expr::{Argument, Expr};
use edd_syntax::operators::{Builtin, RequestKind};
use edd_syntax::reference::Target;
use edd_syntax::stmt::{Part, Stmt};

// The choices of a SELECT_FROM_LIST in their first language.
fn choices_of(e: &Expr<Target>) -> Option<Vec<String>> {
    let Expr::Call {
        function: Target::Function(Builtin::Ask(RequestKind::SelectFromList)),
        arguments,
        ..
    } = without_parentheses(e)
    else {
        return None;
    };
    let Argument::Text(list) = arguments.get(1)? else {
        return None;
    };
    let first = Variants::of(quoted(list)?.as_bytes()).next()?;
    let words = str::from_utf8(first.words).ok()?;
    Some(words.split(';').map(|one| one.trim().to_owned()).collect())
}

/// The choices of a body.
struct Selections<'c, 'd, 'f> {
    context: &'c Context<'d>,
    findings: &'f mut Findings<'d>,
}

impl Selections<'_, '_, '_> {
    // A variable that a choice sets to a number which is another enumerator.
    fn check(&mut self, to: Target, number: i64, choice: &str, at: TokenIndex) {
        let known = variable_of(to).and_then(|one| self.context.instrument.variable(one));
        let Some(variable) = known else {
            return;
        };
        let own = variable.enumerator_of(choice);
        if own.is_some_and(|own| own != number) && variable.words_of(number).is_some() {
            let kind = MethodKind::ExchangedChoice(choice.to_owned());
            self.findings.add(at, kind);
        }
    }

    fn check_cases(&mut self, choices: &[String], parts: &[Part<Target>]) {
        let mut choice = None;
        for part in parts {
            match part {
                Part::CaseLabel { label, .. } => {
                    let label = usize::try_from(*label).ok();
                    choice = label.and_then(|label| choices.get(label));
                }
                Part::DefaultLabel { .. } => choice = None,
                Part::Statement(Stmt::Evaluate(e @ Expr::Assign(to, value))) => {
                    let number = evaluate(value, Sort::Method).number();
                    if let Some((choice, number)) = choice.zip(number) {
                        let at = self.context.places.sign(e);
                        self.check(*to, number, choice, at);
                    }
                }
                _ => {}
            }
        }
    }
}

impl<'t> Visitor<'t> for Selections<'_, '_, '_> {
    fn expression(&mut self, e: &'t Expr<Target>, _: Sort) {
        if let Expr::Assign(to, value) = e
            && let Some(choices) = choices_of(value)
        {
            let at = self.context.places.sign(e);
            for (number, choice) in (0i64..).zip(&choices) {
                if !self.findings.is_reported(self.context.source.span(at)) {
                    self.check(*to, number, choice, at);
                }
            }
        }
    }

    fn statement(&mut self, s: &'t Stmt<Target>) {
        if let Stmt::Switch(on, parts) = s
            && let Some(choices) = choices_of(on)
        {
            self.check_cases(&choices, parts);
        }
    }
}

/// Checks what the choices of a body set.
pub(super) fn check_selections<'d>(
    parts: &[Part<Target>],
    context: &Context<'d>,
    findings: &mut Findings<'d>,
) {
    visit_parts(parts, &mut Selections { context, findings });
}
