//! What is wrong behind the first fault of a text.
//!
//! Each item is read by itself. A fault in it is told, what it stands in is taken for blanks (the
//! attribute, the entry of a list, or the statement), and the rest is read again. What is left has no
//! fault, so that the core can be asked which rules it breaks.

mod alone;
mod entries;
mod reading;
mod sections;

pub use reading::{Later, Recovered, recover};
pub(crate) use sections::is_item_word;
