//! Calls: commands and transactions that are not there, and variables that can't be entered.

use super::stores::{check_assigned, check_stored};
use super::walk::Walk;
use crate::instrument::variable_of;
use crate::kind::MethodKind;
use crate::source::TokenIndex;
use edd_constants::evaluate;
use edd_instructions::Sort;
use edd_syntax::expr::{Argument, Expr};
use edd_syntax::operators::{Builtin, RequestKind};
use edd_syntax::reference::Target;

/// The numbers of the commands that every device of the protocol may have.
const COMMON: std::ops::RangeInclusive<i64> = 0..=127;

/// The number that an argument is in a method, where that is known.
pub(crate) fn number_of_argument(arguments: &[Argument<Target>], place: usize) -> Option<i64> {
    match arguments.get(place)? {
        Argument::Value(e) => evaluate(e, Sort::Method).number(),
        Argument::Text(_) => None,
    }
}

/// What an argument refers to.
pub(crate) fn target_of_argument(arguments: &[Argument<Target>], place: usize) -> Option<Target> {
    match arguments.get(place)? {
        Argument::Value(Expr::Reference(to)) => Some(*to),
        _ => None,
    }
}

/// Checks a call of a function, whose arguments are checked.
pub(super) fn check_call(
    function: Builtin,
    arguments: &[Argument<Target>],
    at: TokenIndex,
    walk: &mut Walk<'_, '_>,
) {
    match function {
        Builtin::Iassign | Builtin::Lassign => check_store(arguments, at, walk),
        Builtin::Ask(RequestKind::SendCommand | RequestKind::SendCommandTrans) => {
            check_command(arguments, at, walk);
        }
        Builtin::Ask(RequestKind::GetDevVarValue) => check_entered(arguments, at, walk),
        Builtin::Abort | Builtin::ProcessAbort => walk.act(),
        Builtin::AddAbortMethod => {
            walk.act();
            walk.has_abort_method = true;
        }
        _ => {}
    }
}

// A store by a function.
fn check_store(arguments: &[Argument<Target>], at: TokenIndex, walk: &mut Walk<'_, '_>) {
    let Some(to) = target_of_argument(arguments, 0) else {
        return;
    };
    if let Some(Argument::Value(value)) = arguments.get(1) {
        check_assigned(to, value, at, walk);
        check_stored(to, value, at, walk);
    }
    walk.write(to);
}

// A command that the description does not have, or a transaction that its command does not have.
fn check_command(arguments: &[Argument<Target>], at: TokenIndex, walk: &mut Walk<'_, '_>) {
    let Some(command) = number_of_argument(arguments, 0) else {
        return;
    };
    let instrument = &walk.context.instrument;
    let transaction = number_of_argument(arguments, 1);
    if instrument.lacks_command(command) {
        // Where both are exchanged there is such a command and such a transaction.
        let other = transaction.filter(|other| instrument.has_transaction(*other, command));
        let kind = if let Some(other) = other {
            MethodKind::ExchangedNumbers(other, command)
        } else if COMMON.contains(&command) {
            MethodKind::UndeclaredCommand(command)
        } else {
            MethodKind::MissingCommand(command)
        };
        return walk.findings.add(at, kind);
    }
    let lacking = transaction.filter(|number| instrument.lacks_transaction(command, *number));
    if let Some(number) = lacking {
        walk.findings
            .add(at, MethodKind::MissingTransaction(command, number));
    }
}

// A variable that a technician is asked for and can't write.
fn check_entered(arguments: &[Argument<Target>], at: TokenIndex, walk: &mut Walk<'_, '_>) {
    let variable = target_of_argument(arguments, 1).and_then(variable_of);
    let known = variable.and_then(|variable| walk.context.instrument.variable(variable));
    if let Some(variable) = known.filter(|variable| variable.is_read_only) {
        let name = variable.name().to_owned();
        walk.findings.add(at, MethodKind::UnwritableVariable(name));
    }
}
