//! What a key asks for.
use std::prelude::v1::*;

pub enum Act {
    /// Nothing but that it may be shown otherwise.
    Nothing,
    /// The number of the entry, the value or the choice that is selected.
    Number(i64),
    /// The line that was typed.
    Line(String),
    /// Acknowledges, goes on, or leaves.
    Enter,
    Back,
    /// Aborts the method that asks.
    Abort,
    /// The help of the entry that is selected, if one is.
    Help(Option<i64>),
    /// Which keys there are.
    Keys,
    Quit,
}
