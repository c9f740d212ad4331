//! The keys that mean something, and what else a terminal says.
use std::prelude::v1::*;

#[derive(Clone, Copy)]
pub enum Key {
    Up,
    Down,
    Left,
    Right,
    Home,
    End,
    PageUp,
    PageDown,
    Enter,
    Escape,
    Backspace,
    /// A character that is no control character.
    Character(char),
    /// Ctrl-C
    Interrupt,
    /// Ctrl-D
    EndOfInput,
    /// No key: what the terminal answers where it is asked for its last row and column.
    Size {
        rows: u16,
        columns: u16,
    },
}
