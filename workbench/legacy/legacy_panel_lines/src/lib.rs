//! The lines of a panel: screens, variables that are edited and requests of methods as text.
#![no_std]
#[macro_use]
extern crate std;
use std::prelude::v1::*;

mod numbers;
mod offers;
mod records;
mod requests;
mod screens;
mod sheets;
mod texts;
mod views;

pub use edd_sinks::TextSink;
pub use numbers::{push_content, push_number};
pub use offers::{Offers, offers_of};
pub use records::{push_answer, push_done, push_set, push_start};
pub use requests::push_request;
pub use sheets::push_kind;
pub use texts::{push_text, push_trap, push_words};
pub use views::{prompt_of, push_asked, push_end, push_happened, push_help, push_view};

/// The commands, for `?`.
pub const COMMANDS: &str = "\
N        opens an entry: a menu, a variable or a method; at a variable it is the new value
LABEL    the value, the bit or the choice that is called so
+N -N    set and clear a bit of a BIT_ENUMERATED, by its number or its label
b        goes back
h N      the help of an entry, and h alone that of the variable that is open
abort    aborts the method that asks
q        ends, and aborts a method that asks
";
