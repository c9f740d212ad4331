//! What is shown of a panel: screens of menus and of variables, as data, and what the lines mean
//! that a user types.
#![no_std]
#[macro_use]
extern crate std;
use std::prelude::v1::*;

mod contents;
mod format;
mod lines;
mod meaning;
mod screens;
mod sheets;
mod shown;
mod words;

pub use contents::Content;
pub use format::{Format, Radix};
pub use lines::Line;
pub use screens::{Leads, Row, Screen};
pub use sheets::{Bound, Choice, Sheet};
pub use shown::{help_of, line_of, page_of, screen_of, sheet_of};
pub use words::{Page, Words};
