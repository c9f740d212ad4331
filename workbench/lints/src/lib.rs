//! What a description may say and almost certainly does not mean.
//!
//! The core decides what a description is and what its constants are. The lints look at its trees
//! for what the language allows and a maker can't have meant. The trees say what is there, and the
//! tokens where.

mod abort_methods;
mod bodies;
mod branches;
mod claims;
mod classes;
mod commands;
mod conditions;
mod context;
mod cycles;
mod echoes;
mod entries;
mod enumerators;
mod exchanged;
mod exchanges;
mod expressions;
mod families;
mod finding;
mod formats;
mod gaps;
mod instrument;
mod items;
mod kind;
mod labels;
mod levels;
mod limits;
mod lint;
mod listings;
mod lists;
mod lockouts;
mod menus;
mod messages;
mod names;
mod offers;
mod page;
mod parallel;
mod places;
mod range;
mod remarks;
mod repeats;
mod settled;
mod source;
mod table;
mod texts;
mod traffic;
mod traits;
mod types;
mod units;
mod unshared;
mod unused;
mod usage;
mod values;
mod visit;
mod warning;
mod words;

pub use classes::CLASSES;
pub use finding::find;
pub use kind::{
    CommandKind, ConditionKind, Kind, MenuKind, MethodKind, NumberRole, TextKind, VariableKind,
};
pub use levels::{Level, Levels};
pub use lint::{LINTS, Lint};
pub use page::page;
pub use range::Range;
pub use warning::{Related, Role, Warning};
