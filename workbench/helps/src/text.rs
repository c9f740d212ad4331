//! What is said of a text that has no tokens: the place of its fault and what helps.

mod characters;
mod faults;
mod numbers;
mod places;
mod quotes;
mod sentences;

pub use characters::{CharacterHelp, CharacterLooks};
pub(crate) use faults::explain;
pub(crate) use quotes::long_string;
pub use sentences::TextHelp;
