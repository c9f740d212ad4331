//! The keys of a terminal: what its bytes are, what each key asks for where lines can be selected
//! and a line can be typed, and how the screen is drawn.
#![no_std]
#[macro_use]
extern crate std;
use std::prelude::v1::*;

mod act;
mod frame;
mod key;
mod key_bytes;
mod keypad;
mod moves;
mod rows;
mod shown;
mod widths;
mod window;

pub use act::Act;
pub use frame::{Frame, drawn};
pub use key::Key;
pub use key_bytes::{KeyBytes, Taken};
pub use keypad::Keypad;
pub use rows::{Rows, fold};
pub use shown::{Offer, Shown, Stage};
pub use window::{Window, height_beside};

/// The keys, for `?`.
pub const KEYS: &str = "\
Up Down       selects a line; PageUp, PageDown, Home and End go further
Enter         opens an entry, takes what is typed or selected, and goes on
Right Left    opens an entry, and goes back
Escape        goes back; aborts the method that asks
Space         changes the selected bit, and Enter then sets the value
0 to 9        an entry by its number; a value and a label are typed
Backspace     takes a character back, or goes back
h             the help of the entry; h and Enter that of a variable
q Ctrl-C      ends at a menu; Ctrl-C aborts the method that asks
";
