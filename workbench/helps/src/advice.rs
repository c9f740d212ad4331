//! What may be said where a source is wrong.

use crate::{CharacterHelp, NameHelp, RuleHelp, ScriptHelp, Slip, SyntaxHelp, TextHelp};
use std::fmt;

/// What is said of a fault, by the family that knows it. It prints a sentence.
#[derive(Clone, Debug, PartialEq, Eq)]
pub enum Advice {
    /// A slip that is known by the tokens around it.
    Slip(Slip),
    /// A fault of the characters of a text.
    Text(TextHelp),
    /// A character that no token has.
    Character(CharacterHelp),
    /// A token that does not fit.
    Syntax(SyntaxHelp),
    /// A name that means nothing, or something of another kind.
    Name(NameHelp),
    /// Another rule that is broken.
    Rule(RuleHelp),
    /// A word of a script.
    Script(ScriptHelp),
    /// Where what a lint found is in conflict with.
    OtherPlace,
}

impl fmt::Display for Advice {
    fn fmt(&self, f: &mut fmt::Formatter<'_>) -> fmt::Result {
        match self {
            Advice::Slip(slip) => slip.fmt(f),
            Advice::Text(help) => help.fmt(f),
            Advice::Character(help) => help.fmt(f),
            Advice::Syntax(help) => help.fmt(f),
            Advice::Name(help) => help.fmt(f),
            Advice::Rule(help) => help.fmt(f),
            Advice::Script(help) => help.fmt(f),
            Advice::OtherPlace => f.write_str("the other place is"),
        }
    }
}

macro_rules! families {
    ($($family:ident($help:ty),)*) => {
        $(impl From<$help> for Advice {
            fn from(help: $help) -> Advice {
                Advice::$family(help)
            }
        })*
    };
}

families! {
    Slip(Slip),
    Text(TextHelp),
    Character(CharacterHelp),
    Syntax(SyntaxHelp),
    Name(NameHelp),
    Rule(RuleHelp),
    Script(ScriptHelp),
}
