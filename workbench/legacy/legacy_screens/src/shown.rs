//! What is shown of a panel, and what its user's lines mean.
use std::prelude::v1::*;

use crate::lines::{Expected, Line, read_line};
use crate::screens::{Screen, make_screen};
use crate::sheets::{Sheet, make_sheet};
use crate::words::{Page, Words};
use edd_instructions::Request;
use edd_panel::{Field, Panel, list_entries};
use edd_port::Turn;
use edd_syntax::numbers::ItemNo;
use std::alloc::{AllocError, Global};

/// The image of a panel, and the language of its texts.
pub fn page_of<'i, 'b>(panel: &Panel<'i, 'b>) -> Page<'i, 'b> {
    Page {
        image: panel.image(),
        language: panel.language(),
    }
}

/// The screen of the menu where the user is.
pub fn screen_of<'b>(alloc: Global, panel: &Panel<'_, 'b>) -> Result<Screen<'b>, AllocError> {
    make_screen(alloc, &page_of(panel), panel.values(), panel.level())
}

/// What is shown of a variable. `asked` says that a method asks for its value, so that it may be
/// given whatever HANDLING says.
pub fn sheet_of<'b>(
    alloc: Global,
    panel: &Panel<'_, 'b>,
    field: Field,
    asked: bool,
) -> Result<Sheet<'b>, AllocError> {
    make_sheet(alloc, &page_of(panel), panel.values(), field, asked)
}

/// What a line asks for where the user is.
pub fn line_of(alloc: Global, panel: &Panel<'_, '_>, line: &str) -> Result<Line, AllocError> {
    let expected = match (panel.turn(), panel.field()) {
        (Some(Turn::Asks(Request::GetDevVarValue(_, variable))), _) => Expected::Value(Field {
            variable,
            read_only: false,
        }),
        (Some(Turn::Asks(Request::SelectFromList(_, choices))), _) => Expected::Choice(choices),
        (None, Some(field)) => Expected::Value(field),
        _ => Expected::Number,
    };
    read_line(alloc, &page_of(panel), panel.values(), expected, line)
}

/// The help of the entry of a number, or else of the variable that is open.
pub fn help_of<'b>(
    alloc: Global,
    panel: &Panel<'_, 'b>,
    number: Option<i64>,
) -> Result<Option<Words<'b>>, AllocError> {
    let page = page_of(panel);
    let values = panel.values();
    let Some(number) = number else {
        return match panel.field() {
            Some(field) => page.help(alloc, values, ItemNo::Variable(field.variable), None),
            None => Ok(None),
        };
    };
    let listing = list_entries(alloc, page.image, values, panel.level().place)?;
    match listing.numbered(number) {
        Some(entry) => page.help(alloc, values, entry.item, entry.help),
        None => Ok(None),
    }
}
