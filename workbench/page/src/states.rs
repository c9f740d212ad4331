//! What is given of a desk, as the page shows it.
use crate::texts::{content_text, name_text, optional_text, trap_text, words_text};
use edd_explain::Explanation;
use edd_image::VarKind;
use edd_instructions::Request;
use edd_panel::{Field, Panel, text_of_choices};
use edd_port::Turn;
use edd_syntax::answer::Trap;
use edd_syntax::numbers::{ItemNo, StrNo, VarNo};
use edd_syntax::types::VarType;
use legacy_panel_lines::{TextSink, push_kind, push_number, push_text};
use legacy_screens::{
    Bound, Choice, Content, Leads, Row, Screen, Sheet, page_of, screen_of, sheet_of,
};
use serde::Serialize;
use std::alloc::{AllocError, Global};
use std::string::String;
use std::vec::Vec;

/// Where the user is: at a menu, at a variable that is open, or asked by a method.
#[derive(Serialize)]
pub struct State {
    turn: &'static str,
    screen: ScreenText,
    sheet: Option<SheetText>,
    asks: Option<Asked>,
}

#[derive(Serialize)]
struct ScreenText {
    title: Option<String>,
    trap: Option<String>,
    rows: Vec<RowText>,
}

/// A text has no number.
#[derive(Serialize)]
struct RowText {
    number: Option<u32>,
    label: String,
    leads: &'static str,
    value: Option<String>,
    unit: Option<String>,
    read_only: bool,
    trap: Option<String>,
}

/// A variable where it is edited. Numbers are texts, since they can be longer than those of a page.
#[derive(Serialize)]
struct SheetText {
    label: String,
    help: Option<String>,
    kind: Option<String>,
    form: &'static str,
    value: String,
    /// What the field for a new value begins with.
    entered: String,
    unit: Option<String>,
    lowest: Option<String>,
    highest: Option<String>,
    choices: Vec<ChoiceText>,
    trap: Option<String>,
    refused: Option<String>,
}

/// A value that has a name, and whether the variable has it; for a bit whether it is set.
#[derive(Serialize)]
struct ChoiceText {
    value: String,
    label: Option<String>,
    help: Option<String>,
    is_on: bool,
}

/// What a method asks.
#[derive(Serialize)]
struct Asked {
    asks: &'static str,
    text: Option<String>,
    seconds: Option<i32>,
    choices: Vec<String>,
    sheet: Option<SheetText>,
}

/// The value of a variable that was changed, or of one of a device.
#[derive(Serialize)]
pub struct ValueText {
    name: String,
    label: Option<String>,
    value: String,
}

/// What a number of a refusal means.
#[derive(Serialize)]
pub struct Explained {
    number: u32,
    name: &'static str,
    text: String,
}

impl Explained {
    pub fn of(found: &Explanation) -> Result<Explained, AllocError> {
        Ok(Explained {
            number: found.number,
            name: found.name,
            text: std::format!(in Global; "{found}\n")?,
        })
    }
}

/// Where a method is.
pub fn turn_word(turn: Option<Turn>) -> &'static str {
    match turn {
        None => "none",
        Some(Turn::Asks(_)) => "asks",
        Some(Turn::Spent) => "runs",
        Some(Turn::Ended) => "ended",
        Some(Turn::Aborted) => "aborted",
        Some(Turn::Trapped(_)) => "trapped",
    }
}

fn optional_trap(trap: Option<Trap>) -> Result<Option<String>, AllocError> {
    trap.map(trap_text).transpose()
}

fn content_trap(content: &Content<'_>) -> Result<Option<String>, AllocError> {
    match content {
        Content::Fault(trap) => Ok(Some(trap_text(*trap)?)),
        _ => Ok(None),
    }
}

fn entry_text(label: String, leads: &Leads<'_>, number: u32) -> Result<RowText, AllocError> {
    let mut row = RowText {
        number: Some(number),
        label,
        leads: "menu",
        value: None,
        unit: None,
        read_only: false,
        trap: None,
    };
    match leads {
        Leads::Variable {
            content,
            unit,
            read_only,
        } => {
            row.leads = "variable";
            row.value = Some(content_text(content)?);
            row.unit = optional_text(*unit)?;
            row.read_only = *read_only;
            row.trap = content_trap(content)?;
        }
        Leads::Menu => {}
        Leads::Method => row.leads = "method",
        Leads::Fault(trap) => {
            row.leads = "nothing";
            row.trap = Some(trap_text(*trap)?);
        }
    }
    Ok(row)
}

fn screen_text(screen: &Screen<'_>) -> Result<ScreenText, AllocError> {
    let mut rows = Vec::with_capacity(Global, screen.rows.len())?;
    let mut number = 0;
    for row in &screen.rows {
        rows.push(match row {
            Row::Text(words) => RowText {
                number: None,
                label: words_text(*words)?,
                leads: "text",
                value: None,
                unit: None,
                read_only: false,
                trap: None,
            },
            Row::Entry { label, leads, .. } => {
                number += 1;
                entry_text(words_text(*label)?, leads, number)?
            }
        })?;
    }
    Ok(ScreenText {
        title: optional_text(screen.title)?,
        trap: optional_trap(screen.trap)?,
        rows,
    })
}

/// How a variable is entered.
fn form_of(sheet: &Sheet<'_>) -> &'static str {
    match sheet.kind.map(|kind| kind.var_type) {
        Some(VarType::Enumerated) => "choice",
        Some(VarType::BitEnumerated) => "bits",
        _ => "number",
    }
}

fn bound_text(sheet: &Sheet<'_>, bound: Bound) -> Result<Option<String>, AllocError> {
    match (bound, sheet.kind) {
        (Bound::Number(number), Some(kind)) => {
            let mut text = TextSink::new(Global);
            push_number(&mut text, number, kind.size, sheet.format);
            Ok(Some(text.finish()?))
        }
        (Bound::Fault(trap), _) => Ok(Some(trap_text(trap)?)),
        _ => Ok(None),
    }
}

fn label_text(label: Option<edd_loader::Text<'_>>) -> Result<Option<String>, AllocError> {
    match label {
        Some(label) => {
            let mut text = TextSink::new(Global);
            push_text(&mut text, label);
            Ok(Some(text.finish()?))
        }
        None => Ok(None),
    }
}

fn choice_text(sheet: &Sheet<'_>, choice: &Choice<'_>) -> Result<ChoiceText, AllocError> {
    let is_on = match sheet.content {
        Content::Bits { number, .. } => number & choice.value == choice.value,
        Content::Named { number, .. } => number == choice.value,
        _ => false,
    };
    Ok(ChoiceText {
        value: std::format!(in Global; "{}", choice.value)?,
        label: label_text(choice.label)?,
        help: label_text(choice.help)?,
        is_on,
    })
}

fn entered_text(content: &Content<'_>) -> Result<String, AllocError> {
    match content {
        Content::Nothing | Content::Fault(_) => Ok(String::new(Global)),
        Content::Number { .. } => {
            let text = content_text(content)?;
            String::from_str(Global, text.trim())
        }
        Content::Named { number, .. } | Content::Bits { number, .. } => {
            std::format!(in Global; "{number}")
        }
    }
}

fn kind_text(kind: VarKind) -> Result<String, AllocError> {
    let mut text = TextSink::new(Global);
    push_kind(&mut text, kind);
    text.finish()
}

fn sheet_text(sheet: &Sheet<'_>) -> Result<SheetText, AllocError> {
    let mut choices = Vec::with_capacity(Global, sheet.choices.len())?;
    for choice in &sheet.choices {
        choices.push(choice_text(sheet, choice)?)?;
    }
    Ok(SheetText {
        label: words_text(sheet.label)?,
        help: optional_text(sheet.help)?,
        kind: sheet.kind.map(kind_text).transpose()?,
        form: form_of(sheet),
        value: content_text(&sheet.content)?,
        entered: entered_text(&sheet.content)?,
        unit: optional_text(sheet.unit)?,
        lowest: bound_text(sheet, sheet.lowest)?,
        highest: bound_text(sheet, sheet.highest)?,
        choices,
        trap: optional_trap(sheet.trap)?,
        refused: match sheet.refused {
            Some(fault) => Some(std::format!(in Global; "{fault}")?),
            None => None,
        },
    })
}

fn string_text(panel: &Panel<'_, '_>, string: StrNo) -> Result<Option<String>, AllocError> {
    label_text(page_of(panel).text(string))
}

fn choices_text(panel: &Panel<'_, '_>, choices: StrNo) -> Result<Vec<String>, AllocError> {
    let mut texts = Vec::new(Global);
    for choice in text_of_choices(panel.image(), choices, panel.language()).split(';') {
        texts.push(String::from_str(Global, choice.trim())?)?;
    }
    Ok(texts)
}

fn asked(panel: &Panel<'_, '_>, request: Request) -> Result<Asked, AllocError> {
    let mut asked = Asked {
        asks: "code",
        text: None,
        seconds: None,
        choices: Vec::new(Global),
        sheet: None,
    };
    match request {
        Request::PutMessage(text) => {
            (asked.asks, asked.text) = ("nothing", string_text(panel, text)?)
        }
        Request::Acknowledge(text) => {
            (asked.asks, asked.text) = ("enter", string_text(panel, text)?)
        }
        Request::Delay(time, text) => {
            (asked.asks, asked.text) = ("wait", string_text(panel, text)?);
            asked.seconds = Some(time);
        }
        Request::GetDevVarValue(text, variable) => {
            (asked.asks, asked.text) = ("value", string_text(panel, text)?);
            let field = Field {
                variable,
                read_only: false,
            };
            asked.sheet = Some(sheet_text(&sheet_of(Global, panel, field, true)?)?);
        }
        Request::SelectFromList(text, choices) => {
            (asked.asks, asked.text) = ("choice", string_text(panel, text)?);
            asked.choices = choices_text(panel, choices)?;
        }
        _ => {
            let mut text = TextSink::new(Global);
            legacy_panel_lines::push_request(&mut text, &page_of(panel), request);
            asked.text = Some(text.finish()?);
        }
    }
    Ok(asked)
}

pub fn state_of(panel: &Panel<'_, '_>) -> Result<State, AllocError> {
    let turn = panel.turn();
    let sheet = match (turn, panel.field()) {
        (None, Some(field)) => Some(sheet_text(&sheet_of(Global, panel, field, false)?)?),
        _ => None,
    };
    Ok(State {
        turn: turn_word(turn),
        screen: screen_text(&screen_of(Global, panel)?)?,
        sheet,
        asks: match turn {
            Some(Turn::Asks(request)) => Some(asked(panel, request)?),
            _ => None,
        },
    })
}

/// The value of a variable. It has a label where there is a language for it.
pub fn value_text(
    image: &edd_loader::Image<'_>,
    label: Option<String>,
    variable: VarNo,
    number: i64,
) -> Result<ValueText, AllocError> {
    Ok(ValueText {
        name: name_text(image, ItemNo::Variable(variable))?,
        label,
        value: std::format!(in Global; "{number}")?,
    })
}
