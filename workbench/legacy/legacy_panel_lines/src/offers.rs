//! What is shown of a panel, with what each line offers.
use std::prelude::v1::*;

use crate::requests::{push_choices, push_question};
use crate::screens::{push_rows, push_title};
use crate::sheets::{push_choice, push_faults, push_value};
use crate::views::{field_asked, push_view};
use edd_instructions::Request;
use edd_panel::{Field, Panel};
use edd_port::Turn;
use edd_sinks::{ListSink, TextSink};
use edd_syntax::numbers::ItemNo;
use legacy_keys::Offer;
use legacy_screens::{Content, Row, Screen, Sheet, page_of, screen_of, sheet_of};
use std::alloc::{AllocError, Global};

/// Lines, and what each offers, if it does: an entry, a value, bits or a choice.
pub struct Offers {
    pub lines: String,
    pub offers: Vec<Option<Offer>>,
    /// The value that a variable has, where one of the lines is to stand for it.
    pub value: Option<i64>,
    /// The value whose bits the numbers are.
    pub bits: Option<i64>,
}

// The same as it is gathered.
struct Gathered {
    lines: TextSink,
    offers: ListSink<Option<Offer>>,
    value: Option<i64>,
    bits: Option<i64>,
}

// A number that is about nothing else.
fn itself(number: i64) -> Offer {
    Offer {
        number,
        about: number,
    }
}

// A number that no other item has.
fn code_of(item: ItemNo) -> i64 {
    (i64::from(item.kind().number()) << 16) | i64::from(item.index())
}

impl Gathered {
    // The lines that were added offer nothing.
    fn pass(&mut self) {
        let known = self.offers.items.len();
        for _ in self.lines.text.lines().skip(known) {
            self.offers.push(None);
        }
    }

    // The lines that were added are numbered from 1.
    fn count(&mut self) {
        let known = self.offers.items.len();
        let mut number = 0i64;
        for _ in self.lines.text.lines().skip(known) {
            number = number.saturating_add(1);
            self.offers.push(Some(itself(number)));
        }
    }

    // The rows of a screen, of which each entry is numbered.
    fn count_rows(&mut self, rows: &[Row<'_>]) {
        let mut number = 0i64;
        for row in rows {
            match row {
                Row::Text(_) => self.offers.push(None),
                Row::Entry { item, .. } => {
                    number = number.saturating_add(1);
                    let about = code_of(*item);
                    self.offers.push(Some(Offer { number, about }));
                }
            }
        }
    }

    fn add_screen(&mut self, screen: &Screen<'_>) {
        push_title(&mut self.lines, screen);
        self.pass();
        push_rows(&mut self.lines, &screen.rows);
        self.count_rows(&screen.rows);
    }

    // The choices of a variable; they offer nothing where it can't be set.
    fn add_choices(&mut self, sheet: &Sheet<'_>) {
        for choice in &sheet.choices {
            push_choice(&mut self.lines, &sheet.content, choice);
            self.offers.push(match sheet.refused {
                Some(_) => None,
                None => Some(itself(choice.value)),
            });
        }
    }

    fn add_sheet(&mut self, sheet: &Sheet<'_>) {
        push_value(&mut self.lines, sheet);
        self.pass();
        self.add_choices(sheet);
        push_faults(&mut self.lines, sheet);
        self.pass();
        match &sheet.content {
            Content::Named { number, .. } => self.value = Some(*number),
            Content::Bits { number, .. } if sheet.refused.is_none() => self.bits = Some(*number),
            _ => {}
        }
    }

    fn add_question(&mut self, panel: &Panel<'_, '_>, request: Request) {
        let page = page_of(panel);
        push_question(&mut self.lines, &page, request);
        self.pass();
        if let Request::SelectFromList(_, choices) = request {
            push_choices(&mut self.lines, &page, choices);
            self.count();
        }
    }
}

// What is shown of the variable that is open, or that a method asks for, maybe with other bits.
fn sheet_with<'b>(
    alloc: Global,
    panel: &Panel<'_, 'b>,
    field: Field,
    asked: bool,
    bits: Option<i64>,
) -> Result<Sheet<'b>, AllocError> {
    let mut sheet = sheet_of(alloc, panel, field, asked)?;
    if let Some(bits) = bits {
        sheet.show_bits(alloc, bits)?;
    }
    Ok(sheet)
}

/// What is shown of a panel, as `push_view` has it, but that bits may stand in place of those of
/// the variable that is edited.
pub fn offers_of(
    alloc: Global,
    panel: &Panel<'_, '_>,
    bits: Option<i64>,
) -> Result<Offers, AllocError> {
    let mut shown = Gathered {
        lines: TextSink::new(alloc),
        offers: ListSink::new(alloc),
        value: None,
        bits: None,
    };
    match (panel.turn(), panel.field()) {
        (Some(Turn::Asks(request)), _) => {
            shown.add_question(panel, request);
            if let Some(field) = field_asked(request) {
                let sheet = sheet_with(alloc, panel, field, true, bits)?;
                shown.add_sheet(&sheet);
            }
        }
        (Some(_), _) => {
            push_view(&mut shown.lines, panel);
            shown.pass();
        }
        (None, Some(field)) => {
            let sheet = sheet_with(alloc, panel, field, false, bits)?;
            shown.add_sheet(&sheet);
        }
        (None, None) => {
            let screen = screen_of(alloc, panel)?;
            shown.add_screen(&screen);
        }
    }
    Ok(Offers {
        lines: shown.lines.finish()?,
        offers: shown.offers.finish()?,
        value: shown.value,
        bits: shown.bits,
    })
}
