//! What is said of tokens that spell no unit.

mod attributes;
mod braces;
mod candidates;
mod change;
mod comments;
mod confidence;
mod faults;
mod fitting;
mod lines;
mod pairs;
mod sentences;
mod split_words;
mod trials;
mod unsupported;

pub(crate) use faults::explain;
pub use fitting::Fitting;
pub use sentences::SyntaxHelp;
