//! What is shown of a variable where it is edited.
use std::prelude::v1::*;

use crate::contents::{Content, content_of, read_format};
use crate::format::{Format, PLAIN};
use crate::words::{Page, Words};
use edd_image::VarKind;
use edd_instructions::Record;
use edd_loader::Text;
use edd_machine::Values;
use edd_panel::{EditFault, Field, Found, bits_of, first_number, handling_fault, rules_of};
use edd_sinks::ListSink;
use edd_syntax::answer::Trap;
use edd_syntax::numbers::{Attr, ItemNo};
use std::alloc::{AllocError, Global};

/// A limit of what may be entered.
#[derive(Clone, Copy)]
pub enum Bound {
    None,
    Number(i64),
    /// The trap that is in its place.
    Fault(Trap),
}

/// A value that has a name, or a bit that has one.
#[derive(Clone, Copy)]
pub struct Choice<'b> {
    pub value: i64,
    pub label: Option<Text<'b>>,
    pub help: Option<Text<'b>>,
}

/// What is shown of a variable where it is edited.
pub struct Sheet<'b> {
    pub label: Words<'b>,
    pub help: Option<Words<'b>>,
    pub kind: Option<VarKind>,
    pub content: Content<'b>,
    pub unit: Option<Words<'b>>,
    /// How numbers are entered.
    pub format: Format,
    pub lowest: Bound,
    pub highest: Bound,
    pub choices: Vec<Choice<'b>>,
    /// The trap that is in the place of the choices.
    pub trap: Option<Trap>,
    /// Why it can't be changed here, whatever the number, if it can't.
    pub refused: Option<EditFault>,
}

impl Sheet<'_> {
    /// Shows these bits in place of those of the value, where it has bits.
    pub fn show_bits(&mut self, alloc: Global, number: i64) -> Result<(), AllocError> {
        if !matches!(self.content, Content::Bits { .. }) {
            return Ok(());
        }
        let mut labels = ListSink::new(alloc);
        for choice in &self.choices {
            if bits_of(choice.value) & bits_of(number) != 0
                && let Some(label) = choice.label
            {
                labels.push(label);
            }
        }
        let labels = labels.finish()?;
        self.content = Content::Bits { number, labels };
        Ok(())
    }
}

fn bound_of(found: &Found) -> Bound {
    match found {
        Found::Records(records) => match first_number(records) {
            Some(number) => Bound::Number(number),
            None => Bound::None,
        },
        Found::Trap(trap) => Bound::Fault(*trap),
        Found::Nothing => Bound::None,
    }
}

/// The values that have names.
pub fn choices_of<'b>(
    alloc: Global,
    page: &Page<'_, 'b>,
    enumerators: &Found,
) -> Result<Vec<Choice<'b>>, AllocError> {
    let mut choices = ListSink::new(alloc);
    let Found::Records(records) = enumerators else {
        return choices.finish();
    };
    for item in records {
        if let Record::Enumerator { value, text, help } = item {
            choices.push(Choice {
                value: *value,
                label: page.text(*text),
                help: help.and_then(|string| page.text(string)),
            });
        }
    }
    choices.finish()
}

/// The format in which numbers for a variable are entered.
pub fn edit_format(
    alloc: Global,
    page: &Page<'_, '_>,
    values: &Values,
    field: Field,
) -> Result<Format, AllocError> {
    let format = read_format(alloc, page, values, field.variable, Attr::EditFormat)?;
    Ok(format.unwrap_or(PLAIN))
}

/// What is shown of a variable where it is edited. A method that asks for a value may set what
/// can't be written else, and `asked` says so.
pub fn make_sheet<'b>(
    alloc: Global,
    page: &Page<'_, 'b>,
    values: &Values,
    field: Field,
    asked: bool,
) -> Result<Sheet<'b>, AllocError> {
    let item = ItemNo::Variable(field.variable);
    let label = page.label(alloc, values, item, None)?;
    let help = page.help(alloc, values, item, None)?;
    let unit = page.words(alloc, values, item, Attr::ConstantUnit)?;
    let format = edit_format(alloc, page, values, field)?;
    let content = content_of(alloc, page, values, field.variable, Attr::EditFormat)?;
    let rules = rules_of(alloc, page.image, values, field.variable)?;
    let choices = choices_of(alloc, page, &rules.enumerators)?;
    Ok(Sheet {
        label,
        help,
        kind: rules.kind,
        content,
        unit,
        format,
        lowest: bound_of(&rules.lowest),
        highest: bound_of(&rules.highest),
        choices,
        trap: match &rules.enumerators {
            Found::Trap(trap) => Some(*trap),
            _ => None,
        },
        refused: match (asked, field.read_only) {
            (true, _) => None,
            (false, true) => Some(EditFault::ReadOnly),
            (false, false) => handling_fault(&rules.handling),
        },
    })
}
