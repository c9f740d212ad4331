//! Slips that are known by the tokens around the one that does not fit, each in words of its own.

mod around;
mod bodies;
mod brackets;
mod branches;
mod left_out;
mod lists;
mod nesting;
mod operators;
mod placed;
mod shapes;
mod signs;
mod slip;
mod values;
mod words;

pub(crate) use around::{
    Around, At, is_integer, is_joined, is_symbol, open_brace, open_bracket, open_parenthesis,
    opening_parenthesis, parenthesis_open_at,
};
pub(crate) use bodies::early_end;
pub(crate) use left_out::slip_of_left_out;
pub(crate) use lists::{MENU_QUALIFIERS, is_qualifier};
pub(crate) use nesting::nested_comment;
pub(crate) use operators::slip_at;
pub(crate) use placed::Placed;
pub use slip::Slip;
