//! Elements of arrays that are kept where their numbers are meant, and numbers where elements are; and
//! questions for another variable than the one that they set.

use crate::context::Context;
use crate::expressions::calls::target_of_argument;
use crate::expressions::operands::referred;
use crate::expressions::stores::without_parentheses;
use crate::instrument::{Variable, variable_of};
use crate::kind::MethodKind;
use crate::source::{TokenIndex, index};
use crate::texts::variants::Variants;
use crate::traits::{classes_of, quoted};
use crate::values::environment::{Storage, storage_of};
use crate::visit::{Visitor, visit_parts};
use crate::warning::Findings;
use edd_instructions::Sort;
use edd_syntax::expr::{Argument, Expr};
use edd_syntax::operators::{Builtin, RequestKind};
use edd_syntax::reference::Target;
use edd_syntax::stmt::{Part, Stmt};
use std::collections::BTreeSet;

// The array and the place by which an expression takes an element of it.
fn element_by(e: &Expr<Target>) -> Option<(Target, &Expr<Target>)> {
    match without_parentheses(e) {
        Expr::Indexed(array, index) => Some((*array, index)),
        _ => None,
    }
}

fn array_number(array: Target) -> Option<u16> {
    match array {
        Target::Item(edd_syntax::numbers::ItemNo::Array(array)) => Some(array.0),
        _ => None,
    }
}

/// What a body does with the elements of arrays.
struct Elements<'c, 'd, 'f> {
    context: &'c Context<'d>,
    findings: &'f mut Findings<'d>,
    /// The places that are indexes, with their arrays.
    indexes: BTreeSet<(u16, Storage)>,
    /// The places that keep elements, with their arrays.
    kept: Vec<(u16, Storage, TokenIndex)>,
}

impl Elements<'_, '_, '_> {
    // `if (a[i] > most) most = i;`
    fn check_kept_number(&mut self, condition: &Expr<Target>, branch: &Stmt<Target>) {
        let Expr::Compare(_, first, second) = without_parentheses(condition) else {
            return;
        };
        let pair = match (element_by(first), element_by(second)) {
            (Some((_, index)), None) => Some((index, second)),
            (None, Some((_, index))) => Some((index, first)),
            _ => None,
        };
        let Some((counter, kept)) =
            pair.and_then(|(index, kept)| Some((referred(index)?, referred(kept)?)))
        else {
            return;
        };
        let only = match branch {
            Stmt::Block(parts) => match &**parts {
                [Part::Statement(s)] => s,
                _ => return,
            },
            _ => branch,
        };
        if let Stmt::Evaluate(e @ Expr::Assign(to, value)) = only
            && *to == kept
            && referred(value) == Some(counter)
        {
            let at = self.context.places.sign(e);
            self.findings.add(at, MethodKind::StoredNumber);
        }
    }

    fn report(self) {
        for (array, place, at) in self.kept {
            if self.indexes.contains(&(array, place)) {
                self.findings.add(at, MethodKind::StoredElement);
            }
        }
    }

    // A question that has the label of another variable, and nothing of that of its own.
    fn check_question(&mut self, at: TokenIndex, arguments: &[Argument<Target>]) {
        let own = target_of_argument(arguments, 1).and_then(variable_of);
        let Some(own) = own.and_then(|number| self.context.instrument.variable(number)) else {
            return;
        };
        let question = match arguments.first() {
            Some(Argument::Text(text)) => quoted(text),
            _ => None,
        };
        let first = question.and_then(|text| Variants::of(text.as_bytes()).next());
        let Some(words) = first.and_then(|one| str::from_utf8(one.words).ok()) else {
            return;
        };
        if let Some(kind) = crate::claims::wrong_claim(question.unwrap_or_default(), own) {
            self.findings.add(at, kind);
        }
        let other = self.context.labels().named_in(words, own);
        let other = other.and_then(|number| self.context.instrument.variable(number));
        if let Some(other) = other.filter(|other| is_entered(own) && is_entered(other)) {
            let kind = MethodKind::OtherQuestion(other.name().to_owned(), own.name().to_owned());
            self.findings.add(at, kind);
        }
    }
}

fn is_entered(variable: &Variable<'_>) -> bool {
    let classes = classes_of(variable);
    !variable.is_read_only && !classes.contains("LOCAL") && !classes.contains("DYNAMIC")
}

impl<'t> Visitor<'t> for Elements<'_, '_, '_> {
    fn expression(&mut self, e: &'t Expr<Target>, _: Sort) {
        match e {
            Expr::Indexed(array, by) => {
                let place = referred(by).and_then(storage_of);
                self.indexes.extend(array_number(*array).zip(place));
            }
            Expr::Assign(to, value) => {
                // `a = r[a]` follows a chain from number to number.
                let element = element_by(value).filter(|(_, by)| referred(by) != Some(*to));
                let array = element.and_then(|(array, _)| array_number(array));
                if let (Some(array), Some(place)) = (array, storage_of(*to)) {
                    self.kept.push((array, place, self.context.places.sign(e)));
                }
            }
            Expr::Call {
                at,
                function: Target::Function(Builtin::Ask(RequestKind::GetDevVarValue)),
                arguments,
            } => self.check_question(index(*at), arguments),
            _ => {}
        }
    }

    fn statement(&mut self, s: &'t Stmt<Target>) {
        if let Stmt::If(condition, branch) | Stmt::IfElse(condition, branch, _) = s {
            self.check_kept_number(condition, branch);
        }
    }
}

/// Checks what a body keeps of arrays, and what it asks for.
pub(super) fn check_elements<'d>(
    parts: &[Part<Target>],
    context: &Context<'d>,
    findings: &mut Findings<'d>,
) {
    let mut elements = Elements {
        context,
        findings,
        indexes: BTreeSet::new(),
        kept: Vec::new(),
    };
    visit_parts(parts, &mut elements);
    elements.report();
}
