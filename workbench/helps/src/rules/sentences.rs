//! What is said of rules that are broken, but for those on names.

use super::OtherType;
use edd_source::tokens::kind_word;
use edd_syntax::limits::Limit;
use edd_syntax::numbers::Kind;
use edd_syntax::operators::{Builtin, Parameter};
use std::fmt;

/// What is said of a rule that is broken.
#[derive(Clone, Debug, PartialEq, Eq)]
pub enum RuleHelp {
    /// An item of a kind needs an attribute.
    Needs {
        /// The kind.
        kind: Kind,
        /// The word of the attribute.
        word: &'static str,
    },
    /// A type that this profile does not have.
    Type(OtherType),
    /// What a function takes.
    Takes {
        /// The function.
        function: Builtin,
    },
    /// A function that is a statement of its own.
    StandsAlone {
        /// The function.
        function: Builtin,
    },
    /// SELECT_FROM_LIST has all choices in one text.
    ChoicesInOneText,
    /// Values with names in a type that has none.
    NoEnumerators,
    /// An enumerated type has no such option.
    NoOption {
        /// The word of the option.
        word: String,
    },
    /// `break` without a loop or a switch around it.
    BreakOutside,
    /// `continue` without a loop around it.
    ContinueOutside,
    /// A limit that is passed.
    Limit(Limit),
    /// The first item too many.
    FirstTooMany {
        /// Its kind, where it is known.
        kind: Option<Kind>,
        /// Its name.
        name: String,
    },
    /// The item that has more than it may.
    HasMore {
        /// Its kind, where it is known.
        kind: Option<Kind>,
        /// Its name.
        name: String,
    },
    /// A variable of FLOAT or DOUBLE.
    FloatVariable,
    /// A size that no variable has.
    Size,
    /// A number that is not whole.
    FloatValue,
    /// DELAY takes whole seconds.
    WholeSeconds,
    /// A constant or a mask that is out of range.
    Constant,
    /// Two equal labels.
    CaseIsThere,
    /// Two elements of one number.
    NumberIsThere,
    /// A name or an attribute that is there already.
    IsThere {
        /// What is there.
        name: String,
    },
    /// Most members of a collection are of another kind.
    OtherMembers {
        /// How many members are of another kind.
        others: usize,
        /// How many there are.
        all: usize,
        /// The collection.
        collection: String,
        /// The word of the kind that they should have.
        kind: String,
    },
    /// A limit that belongs to no token.
    SeeLimits,
    /// An image in place of a source.
    ImageForSource,
}

/// An item of a kind, with its article.
pub(super) fn named_kind(kind: Kind) -> &'static str {
    match kind {
        Kind::Variable => "a VARIABLE",
        Kind::Command => "a COMMAND",
        Kind::Menu => "a MENU",
        Kind::Collection => "a COLLECTION",
        Kind::Method => "a METHOD",
        Kind::Array => "an ARRAY",
    }
}

fn parameter_word(parameter: Parameter) -> &'static str {
    match parameter {
        Parameter::Text => "a text",
        Parameter::Number => "a number",
        Parameter::DeviceVariable => "a variable of the device",
        Parameter::Method => "a METHOD",
    }
}

// What a function takes.
fn write_parameters(f: &mut fmt::Formatter<'_>, function: Builtin) -> fmt::Result {
    let words: Vec<&str> = function
        .parameters()
        .iter()
        .map(|parameter| parameter_word(*parameter))
        .collect();
    let words = match words.as_slice() {
        [] => "nothing".to_owned(),
        words => words.join(", "),
    };
    write!(f, "{} takes {words}", function.name())
}

impl fmt::Display for RuleHelp {
    fn fmt(&self, f: &mut fmt::Formatter<'_>) -> fmt::Result {
        let item = |kind: &Option<Kind>| kind.map_or("item", kind_word);
        match self {
            RuleHelp::Needs { kind, word } => write!(f, "{} needs {word}", named_kind(*kind)),
            RuleHelp::Type(help) => help.fmt(f),
            RuleHelp::Takes { function } => write_parameters(f, *function),
            RuleHelp::StandsAlone { function } => write!(
                f,
                "{} takes nothing and is a statement of its own",
                function.name()
            ),
            RuleHelp::NoOption { word } => {
                write!(f, "an enumerated type has no {word}, only DEFAULT_VALUE")
            }
            RuleHelp::Limit(limit) => f.write_str(limit_sentence(*limit)),
            RuleHelp::FirstTooMany { kind, name } => {
                write!(f, "the first {} too many is {name}", item(kind))
            }
            RuleHelp::HasMore { kind, name } => write!(f, "the {} {name} has more", item(kind)),
            RuleHelp::IsThere { name } => write!(f, "{name} is there already"),
            RuleHelp::OtherMembers {
                others,
                all,
                collection,
                kind,
            } => write!(
                f,
                "{others} of the {all} members of {collection} are of another kind than {kind}"
            ),
            other => f.write_str(other.fixed()),
        }
    }
}

impl RuleHelp {
    // The sentence of one that has no data.
    fn fixed(&self) -> &'static str {
        match self {
            RuleHelp::ChoicesInOneText => {
                "SELECT_FROM_LIST takes a text, and one text with all choices, as in \"Yes;No\""
            }
            RuleHelp::NoEnumerators => {
                "values with names stand in ENUMERATED and BIT_ENUMERATED alone"
            }
            RuleHelp::BreakOutside => {
                "break leaves a loop or a switch, and there is none around it"
            }
            RuleHelp::ContinueOutside => {
                "continue goes on with a loop, and there is none around it"
            }
            RuleHelp::FloatVariable => "numbers are whole: take INTEGER (4) in a smaller unit",
            RuleHelp::Size => "a variable has 1 to 4 octets",
            RuleHelp::FloatValue => {
                "numbers are whole, without a point or an exponent: take a smaller unit"
            }
            RuleHelp::WholeSeconds => "DELAY waits for whole seconds, and for no part of one",
            RuleHelp::Constant => "a constant is an octet, 0 to 255, and a mask is not 0",
            RuleHelp::CaseIsThere => "this case is there already",
            RuleHelp::NumberIsThere => "this number is there already",
            RuleHelp::SeeLimits => "`edd explain 40` has the limits",
            RuleHelp::ImageForSource => {
                "this is an image and no source: `edd show` shows it, `edd dump` lays it open"
            }
            _ => "",
        }
    }
}

fn limit_sentence(limit: Limit) -> &'static str {
    match limit {
        Limit::Items => "there are at most 4096 items of a kind",
        Limit::Transactions => "a command has at most 4096 transactions",
        Limit::Locals => "a method has at most 64 locals",
        Limit::Nodes => "a description has at most 524288 nodes",
        Limit::Strings => "a description has at most 65535 different texts",
    }
}
