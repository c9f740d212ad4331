//! What a warning is about, with the data of its sentence.

mod command;
mod condition;
mod menu;
mod method;
mod text;
mod variable;

pub use command::CommandKind;
pub use condition::ConditionKind;
pub use menu::MenuKind;
pub use method::MethodKind;
pub use text::TextKind;
pub use variable::{NumberRole, VariableKind};

use crate::lint::Lint;
use std::fmt;

/// Defines a family of kinds: of each its data, the lint that finds it, and its sentence.
macro_rules! kinds {
    (
        $(#[$about:meta])*
        $family:ident {
            $( $kind:ident $( ( $( $field:ident : $type:ty ),* ) )? $lint:ident $sentence:literal )*
        }
    ) => {
        $(#[$about])*
        #[derive(Clone, Debug, PartialEq, Eq)]
        pub enum $family {
            $( #[doc = concat!("`", $sentence, "`")] $kind $( ( $( $type ),* ) )?, )*
        }

        impl $family {
            /// The lint that finds it.
            pub fn lint(&self) -> $crate::lint::Lint {
                match self {
                    $( $family::$kind { .. } => $crate::lint::Lint::$lint, )*
                }
            }
        }

        impl std::fmt::Display for $family {
            fn fmt(&self, f: &mut std::fmt::Formatter<'_>) -> std::fmt::Result {
                match self {
                    $( $family::$kind $( ( $( $field ),* ) )? => write!(f, $sentence), )*
                }
            }
        }
    };
}

pub(crate) use kinds;

/// What a warning is about. Its `Display` is the sentence of the warning.
#[derive(Clone, Debug, PartialEq, Eq)]
pub enum Kind {
    /// Of a variable and its type.
    Variable(VariableKind),
    /// Of a command.
    Command(CommandKind),
    /// Of an expression, or of conditions.
    Condition(ConditionKind),
    /// Of menus, and of items that nothing uses.
    Menu(MenuKind),
    /// Of a text or a comment.
    Text(TextKind),
    /// Of the body of a method.
    Method(MethodKind),
}

impl Kind {
    /// The lint that finds it.
    pub fn lint(&self) -> Lint {
        match self {
            Kind::Variable(kind) => kind.lint(),
            Kind::Command(kind) => kind.lint(),
            Kind::Condition(kind) => kind.lint(),
            Kind::Menu(kind) => kind.lint(),
            Kind::Text(kind) => kind.lint(),
            Kind::Method(kind) => kind.lint(),
        }
    }
}

impl fmt::Display for Kind {
    fn fmt(&self, f: &mut fmt::Formatter<'_>) -> fmt::Result {
        match self {
            Kind::Variable(kind) => kind.fmt(f),
            Kind::Command(kind) => kind.fmt(f),
            Kind::Condition(kind) => kind.fmt(f),
            Kind::Menu(kind) => kind.fmt(f),
            Kind::Text(kind) => kind.fmt(f),
            Kind::Method(kind) => kind.fmt(f),
        }
    }
}

macro_rules! from_families {
    ($( $variant:ident $family:ident )*) => {
        $( impl From<$family> for Kind {
            fn from(kind: $family) -> Kind {
                Kind::$variant(kind)
            }
        } )*
    };
}

from_families! {
    Variable VariableKind
    Command CommandKind
    Condition ConditionKind
    Menu MenuKind
    Text TextKind
    Method MethodKind
}
