//! The screen of a menu.
use std::prelude::v1::*;

use crate::contents::{Content, content_of};
use crate::words::{Page, Words};
use edd_machine::Values;
use edd_panel::{Entry, Level, Listed, Place, handling_fault, list_entries, shown_place};
use edd_sinks::ListSink;
use edd_syntax::answer::Trap;
use edd_syntax::numbers::{Attr, ItemNo, VarNo};
use std::alloc::{AllocError, Global};

/// What an entry leads to.
pub enum Leads<'b> {
    /// A variable, whose value is shown.
    Variable {
        content: Content<'b>,
        unit: Option<Words<'b>>,
        /// Whether it can't be changed here.
        read_only: bool,
    },
    Menu,
    Method,
    /// Whether the entry is there can't be told: its VALIDITY traps.
    Fault(Trap),
}

/// A line of a screen. An entry has a number, and a text none.
pub enum Row<'b> {
    Text(Words<'b>),
    Entry {
        item: ItemNo,
        label: Words<'b>,
        leads: Leads<'b>,
    },
}

/// The screen of a menu, a collection or the top.
pub struct Screen<'b> {
    /// The label of the menu or the collection.
    pub title: Option<Words<'b>>,
    /// The entries are numbered from 1, in their order.
    pub rows: Vec<Row<'b>>,
    /// The trap that is in their place.
    pub trap: Option<Trap>,
}

// A variable to which an entry leads.
fn leads_to_variable<'b>(
    alloc: Global,
    page: &Page<'_, 'b>,
    values: &Values,
    variable: VarNo,
    read_only: bool,
) -> Result<Leads<'b>, AllocError> {
    let unit = page.words(
        alloc,
        values,
        ItemNo::Variable(variable),
        Attr::ConstantUnit,
    )?;
    let handling = page.read(alloc, values, variable, Attr::Handling)?;
    Ok(Leads::Variable {
        read_only: read_only || handling_fault(&handling).is_some(),
        content: content_of(alloc, page, values, variable, Attr::DisplayFormat)?,
        unit,
    })
}

fn row_of<'b>(
    alloc: Global,
    page: &Page<'_, 'b>,
    values: &Values,
    entry: Entry,
    read_only: bool,
) -> Result<Row<'b>, AllocError> {
    let label = page.label(alloc, values, entry.item, entry.label)?;
    let leads = match (entry.trap, entry.item) {
        (Some(trap), _) => Leads::Fault(trap),
        (None, ItemNo::Variable(variable)) => {
            let read_only = read_only || entry.is_read_only();
            leads_to_variable(alloc, page, values, variable, read_only)?
        }
        (None, ItemNo::Method(_)) => Leads::Method,
        (None, _) => Leads::Menu,
    };
    Ok(Row::Entry {
        item: entry.item,
        label,
        leads,
    })
}

fn rows_of<'b>(
    alloc: Global,
    page: &Page<'_, 'b>,
    values: &Values,
    lines: &[Listed],
    read_only: bool,
) -> Result<Vec<Row<'b>>, AllocError> {
    let mut rows = ListSink::new(alloc);
    for line in lines {
        match line {
            Listed::Text(string) => {
                if let Some(text) = page.text(*string) {
                    rows.push(Row::Text(Words::Text(text)));
                }
            }
            Listed::Entry(entry) => {
                let row = row_of(alloc, page, values, *entry, read_only)?;
                rows.push(row);
            }
        }
    }
    rows.finish()
}

fn title_of<'b>(
    alloc: Global,
    page: &Page<'_, 'b>,
    values: &Values,
    place: Place,
) -> Result<Option<Words<'b>>, AllocError> {
    let item = match shown_place(alloc, page.image, values, place)? {
        Place::Top => return Ok(None),
        Place::Menu(menu) => ItemNo::Menu(menu),
        Place::Collection(collection) => ItemNo::Collection(collection),
    };
    let label = page.label(alloc, values, item, None)?;
    Ok(Some(label))
}

/// The screen of a level.
pub fn make_screen<'b>(
    alloc: Global,
    page: &Page<'_, 'b>,
    values: &Values,
    level: Level,
) -> Result<Screen<'b>, AllocError> {
    let title = title_of(alloc, page, values, level.place)?;
    let listing = list_entries(alloc, page.image, values, level.place)?;
    let rows = rows_of(alloc, page, values, &listing.lines, level.read_only)?;
    Ok(Screen {
        title,
        rows,
        trap: listing.trap,
    })
}
