//! What is told of an instruction.

use edd_instructions::Instruction;
use edd_syntax::numbers::{ArrNo, ItemNo, VarNo};
use edd_syntax::operators::{Builtin, Operator, RequestKind};
use edd_syntax::reference::Target;

/// What an instruction does that is told, or why it can trap.
#[derive(Clone, Copy, Debug, PartialEq, Eq)]
pub(crate) enum Effect {
    /// It changes a variable.
    Store(VarNo),
    /// It makes a request.
    Ask(RequestKind),
    /// It divides or shifts.
    Operate(Operator),
    /// It reads an element.
    ReadElement(ArrNo),
    /// It ends the method.
    Abort,
}

impl Effect {
    pub(crate) fn of_instruction(instruction: Instruction) -> Option<Effect> {
        match instruction {
            Instruction::Store(variable) => Some(Effect::Store(variable)),
            Instruction::Ask(ask) => Some(Effect::Ask(ask.kind)),
            Instruction::Operate(operator) => Effect::of_operator(operator),
            Instruction::ReadElement(array) => Some(Effect::ReadElement(array)),
            Instruction::Abort => Some(Effect::Abort),
            _ => None,
        }
    }

    pub(crate) fn of_operator(operator: Operator) -> Option<Effect> {
        match operator {
            Operator::Divide | Operator::Remainder | Operator::ShiftLeft | Operator::ShiftRight => {
                Some(Effect::Operate(operator))
            }
            Operator::Add
            | Operator::Subtract
            | Operator::Multiply
            | Operator::And
            | Operator::Or
            | Operator::Xor => None,
        }
    }

    /// The effect of a change; that of a local is none.
    pub(crate) fn of_store(to: Target) -> Option<Effect> {
        match to {
            Target::Item(ItemNo::Variable(variable)) => Some(Effect::Store(variable)),
            Target::Item(_) | Target::Local(_) | Target::Function(_) => None,
        }
    }

    pub(crate) fn of_index(array: Target) -> Option<Effect> {
        match array {
            Target::Item(ItemNo::Array(number)) => Some(Effect::ReadElement(number)),
            Target::Item(_) | Target::Local(_) | Target::Function(_) => None,
        }
    }

    /// The effect of a call, of which the first argument may be this reference.
    pub(crate) fn of_call(function: Builtin, first: Option<Target>) -> Option<Effect> {
        match function {
            Builtin::Iassign | Builtin::Lassign => Effect::of_store(first?),
            Builtin::Abort | Builtin::ProcessAbort => Some(Effect::Abort),
            Builtin::IvarValue | Builtin::LvarValue | Builtin::AddAbortMethod => None,
            Builtin::Ask(kind) => Some(Effect::Ask(kind)),
        }
    }
}
