//! What is wrong with a source that is refused, and what helps, as data.
//!
//! The core decides that a source is refused and why. This package says where that is shown
//! ([`Finding`]), what may be meant ([`Advice`], which prints a sentence), and which change mends it
//! ([`Fix`](edd_source::Fix)).
//!
//! ```
//! use edd_helps::{Advice, SyntaxHelp, text_fault};
//!
//! let source = b"MANUFACTURER 1, DEVICE_TYPE 2, DEVICE_REVISION 3, DD_REVISION 4
//! VARIABLE p { LABEL \"Pressure\" TYPE INTEGER; }";
//! let (tokens, fault) = text_fault(source).expect("a ; is missing");
//! let explained = edd_helps::explain(source, &tokens, &fault);
//! let help = &explained.finding.helps[0];
//! assert_eq!(help.advice, Advice::Syntax(SyntaxHelp::MissingHere { sign: ";" }));
//! assert_eq!(help.advice.to_string(), "a ; is missing here");
//! assert!(help.fix.is_some());
//! ```

mod advice;
mod core;
mod explaining;
mod help;
mod near;
mod recovery;
mod rules;
mod script;
mod sentences;
mod slips;
mod split;
mod syntax;
mod text;

pub use advice::Advice;
pub use explaining::{Explained, TextFault, explain, text_fault};
pub use help::{Finding, Help};
pub use recovery::{Later, Recovered, recover};
pub use rules::{
    Description, Foreign, NameHelp, OtherKinds, OtherType, RuleHelp, Unnamed, explain_breach,
};
pub use script::{
    ScriptHelp, ScriptSlip, Wrong, explain_script, explain_script_line, nearest_command,
    nearest_method, nearest_variable, script_name_before, script_names,
};
pub use slips::Slip;
pub use syntax::{Fitting, SyntaxHelp};
pub use text::{CharacterHelp, CharacterLooks, TextHelp};
