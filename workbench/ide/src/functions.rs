//! The functions that methods may call, and what they do.

use edd_source::Span;
use edd_syntax::operators::{Builtin, Parameter, RequestKind};

/// What a function does, in a line.
pub(crate) fn effect_of(function: Builtin) -> &'static str {
    match function {
        Builtin::Ask(request) => effect_of_request(request),
        Builtin::IvarValue | Builtin::LvarValue => "The value of a variable.",
        Builtin::Iassign | Builtin::Lassign => "Stores a number in a variable.",
        Builtin::Abort | Builtin::ProcessAbort => "Ends the method, after its abort methods.",
        Builtin::AddAbortMethod => {
            "Lists a method to be run if this one is aborted; its value is -1 if it is not."
        }
    }
}

/// What a request asks for, in a line.
fn effect_of_request(request: RequestKind) -> &'static str {
    match request {
        RequestKind::PutMessage => "Shows a text.",
        RequestKind::Acknowledge => "Shows a text until it is acknowledged.",
        RequestKind::Delay => "Shows a text for a time.",
        RequestKind::GetDevVarValue => {
            "Asks the technician for a value of a variable, with a text."
        }
        RequestKind::SelectFromList => {
            "Asks for one of the choices of the second text; its value says which."
        }
        RequestKind::SendCommand => {
            "Sends the command with this NUMBER; its value is the code of the answer."
        }
        RequestKind::SendCommandTrans => {
            "Sends a transaction, by the second number, of the command with this NUMBER."
        }
        RequestKind::SaveValues => "Keeps the values of the variables in the device.",
    }
}

/// What a function takes in a place, as a word.
fn parameter_word(parameter: Parameter) -> &'static str {
    match parameter {
        Parameter::Text => "text",
        Parameter::Number => "number",
        Parameter::DeviceVariable => "variable",
        Parameter::Method => "method",
    }
}

/// A function as it is called, as `DELAY(number, text)`, and where its parameters are in that.
pub(crate) fn call_form(function: Builtin) -> (String, Vec<Span>) {
    let mut label = format!("{}(", function.name());
    let mut places = Vec::new();
    for parameter in function.parameters() {
        if !places.is_empty() {
            label.push_str(", ");
        }
        let start = label.len();
        label.push_str(parameter_word(*parameter));
        places.push(Span {
            start,
            end: label.len(),
        });
    }
    label.push(')');
    (label, places)
}

/// A function as it is called.
pub(crate) fn as_called(function: Builtin) -> String {
    call_form(function).0
}
