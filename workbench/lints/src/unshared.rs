//! Conditions in messages on variables that no message carries: two branches with other items may have the same
//! octets, and who receives them can't tell which branch they are of.

use crate::context::Context;
use crate::instrument::Variable;
use crate::kind::CommandKind;
use crate::settled::variables_read;
use crate::traits::classes_of;
use crate::usage::carried;
use crate::warning::Findings;
use edd_syntax::cond::{Arm, Cond};
use edd_syntax::expr::Expr;
use edd_syntax::item::{Attribute, DataItem, TransactionPart, TypeWord};
use edd_syntax::reference::Target;

type Data = Cond<Target, DataItem<Target>>;

/// What an octet of a message is.
#[derive(Clone, Copy, PartialEq, Eq)]
enum Octet {
    Constant(u32),
    /// One of a variable, so many behind its first one.
    Variable(u16, u32),
}

// How many octets a variable has.
fn size_of(variable: &Variable<'_>) -> Option<u32> {
    variable.item.attributes.iter().find_map(|one| match one {
        Attribute::TypeOf {
            word: TypeWord::Known { size, .. },
            ..
        } => Some(size.unwrap_or(1)),
        _ => None,
    })
}

// The octets of a branch. Of one with masks or conditions nothing is said.
fn octets_of(branch: &[Data], context: &Context<'_>) -> Option<Vec<Octet>> {
    let mut octets = Vec::new();
    for c in branch {
        match c {
            Cond::Value(DataItem::Constant { value, .. }) => octets.push(Octet::Constant(*value)),
            Cond::Value(item @ DataItem::Variable { mask: None, .. }) => {
                let number = carried(item)?;
                let size = size_of(context.instrument.variable(number)?)?;
                octets.extend((0..size).map(|place| Octet::Variable(number, place)));
            }
            _ => return None,
        }
    }
    Some(octets)
}

// Whether two branches have other variables, and the same octets for some values.
fn are_alike(one: &[Octet], other: &[Octet]) -> bool {
    let are_constants =
        |pair: (&Octet, &Octet)| matches!(pair, (Octet::Constant(a), Octet::Constant(b)) if a != b);
    one.len() == other.len() && one != other && !one.iter().zip(other).any(are_constants)
}

// Whether a technician may choose what a variable is, and nothing else says it: no message carries it, and no
// method sets it.
fn is_unshared(number: u16, context: &Context<'_>) -> bool {
    let usage = &context.usage;
    let is_shared = usage.requested.contains(number) || usage.replied.contains(number);
    let variable = context.instrument.variable(number);
    let is_chosen = |one: &Variable<'_>| !one.is_read_only && !classes_of(one).contains("CONSTANT");
    !is_shared && !usage.set.contains(number) && variable.is_some_and(is_chosen)
}

// The first variable that a condition reads, where all that it reads are such.
fn unshared_in(condition: &Expr<Target>, context: &Context<'_>) -> Option<u16> {
    let mut read = Vec::new();
    variables_read(condition, &mut read);
    let are_unshared = read.iter().all(|one| is_unshared(*one, context));
    read.first().copied().filter(|_| are_unshared)
}

fn check_conditional(c: &Data, context: &Context<'_>, findings: &mut Findings<'_>) {
    let (condition, branches): (_, Vec<&[Data]>) = match c {
        Cond::Value(_) => return,
        Cond::If {
            condition,
            first,
            otherwise,
        } => (condition, vec![first, otherwise]),
        Cond::Select { on, arms } => {
            let bodies = arms.iter().map(|arm| match arm {
                Arm::Case { body, .. } | Arm::Default { body, .. } => &**body,
            });
            (on, bodies.collect())
        }
    };
    for c in branches.iter().copied().flatten() {
        check_conditional(c, context, findings);
    }
    let Some(number) = unshared_in(condition, context) else {
        return;
    };
    let mut octets = branches.iter().map(|branch| octets_of(branch, context));
    let Some(first) = octets.next().flatten() else {
        return;
    };
    if octets.flatten().any(|other| are_alike(&first, &other)) {
        let at = context.places.conditional(c).word;
        let name = context.instrument.name_of(number);
        findings.add(at, CommandKind::UnsharedCondition(name));
    }
}

/// Checks the conditions of the messages of a transaction.
pub(crate) fn check_unshared(
    parts: &[TransactionPart<Target>],
    context: &Context<'_>,
    findings: &mut Findings<'_>,
) {
    for part in parts {
        let (TransactionPart::Request(_, items) | TransactionPart::Reply(_, items)) = part;
        for c in items {
            check_conditional(c, context, findings);
        }
    }
}
