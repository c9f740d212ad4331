//! The lines of a user, one after the other, and what the program answers.
use std::prelude::v1::*;

use crate::device_faults::fault_text;
use crate::fault::SittingFault;
use crate::input::Lines;
use edd_device::{Device, DeviceFault};
use edd_display::print_text;
use edd_instructions::Request;
use edd_panel::{Command, Happened, Panel};
use edd_port::Turn;
use edd_sinks::TextSink;
use edd_syntax::answer::Answer;
use legacy_panel_lines::{
    COMMANDS, prompt_of, push_answer, push_asked, push_done, push_end, push_happened, push_help,
    push_set, push_view,
};
use legacy_screens::{Line, help_of, line_of};
use std::alloc::Global;
use std::io::{Read, Write};

/// The most instructions of a method that are executed before the user is asked whether it goes on.
const STEPS: u32 = 1_000_000;

/// The most messages that a method shows before that.
const MESSAGES: u32 = 1_000;

/// How often a method is aborted at the end: once, and then each abort method that asks.
const ABORTS: u32 = 16;

/// Where a user's lines come from, and where the program's go.
pub struct Console<'c, R, W> {
    pub input: Lines<R>,
    pub out: &'c mut W,
}

// Who answers a request.
enum Reply {
    Given(Answer),
    /// The device has no answer, and this is said of it.
    Fault(String),
    User,
}

/// What comes after a line or a key.
#[derive(Clone, Copy)]
pub enum Next {
    /// All is shown again.
    View,
    /// The user is asked again.
    Prompt,
    End,
}

// Prints lines that were gathered.
fn print<W: Write>(lines: TextSink, out: &mut W) -> Result<(), SittingFault> {
    print_text(out, &lines.finish()?)?;
    Ok(())
}

// The next line, or nothing at the end. A line that is no text is one that means nothing.
fn next_line<R: Read>(alloc: Global, input: &mut Lines<R>) -> Result<Option<String>, SittingFault> {
    let Some(line) = input.next(alloc)? else {
        return Ok(None);
    };
    let text = str::from_utf8(&line).unwrap_or("\0");
    Ok(Some(String::from_str(alloc, text)?))
}

// What the device does with a request.
fn ask_device(
    alloc: Global,
    panel: &Panel<'_, '_>,
    request: Request,
    device: &mut Device<'_, '_>,
) -> Result<Reply, SittingFault> {
    let values = panel.values();
    let instrument = device.instrument();
    if !values.are_of(instrument) {
        return Ok(Reply::User);
    }
    match device.reply(alloc, &request, values) {
        Ok(Some(answer)) => Ok(Reply::Given(answer)),
        Ok(None) => Ok(Reply::User),
        Err(DeviceFault::Memory) => Err(SittingFault::Memory),
        Err(fault) => Ok(Reply::Fault(fault_text(
            alloc,
            instrument,
            device.image(),
            fault,
        )?)),
    }
}

// Who answers a request: a message is answered at once, and a device, where there is one, answers
// what needs no user. A delay that is held is left to the user.
fn reply_to(
    alloc: Global,
    panel: &Panel<'_, '_>,
    request: Request,
    device: &mut Option<Device<'_, '_>>,
    holds_delays: bool,
) -> Result<Reply, SittingFault> {
    match (request, device) {
        (Request::PutMessage(_), _) => Ok(Reply::Given(Answer::Go {
            code: 0,
            sets: Vec::new(alloc),
        })),
        (Request::Delay(_, _), _) if holds_delays => Ok(Reply::User),
        (_, Some(device)) => ask_device(alloc, panel, request, device),
        (_, None) => Ok(Reply::User),
    }
}

// Shows a request and gives it an answer.
fn give<W: Write>(
    alloc: Global,
    panel: &mut Panel<'_, '_>,
    request: Request,
    answer: &Answer,
    out: &mut W,
    noted: &mut String,
) -> Result<(), SittingFault> {
    let mut lines = TextSink::new(alloc);
    push_asked(&mut lines, panel, request);
    print(lines, out)?;
    if panel.answer(answer).is_ok() {
        push_answer(noted, panel.image(), answer)?;
    }
    Ok(())
}

fn show_end<W: Write>(alloc: Global, turn: Turn, out: &mut W) -> Result<(), SittingFault> {
    let mut lines = TextSink::new(alloc);
    push_end(&mut lines, turn);
    print(lines, out)
}

// Aborts the method, whose device has no answer, and says why.
fn give_up<W: Write>(
    alloc: Global,
    panel: &mut Panel<'_, '_>,
    request: Request,
    why: &str,
    out: &mut W,
    noted: &mut String,
) -> Result<(), SittingFault> {
    give(alloc, panel, request, &Answer::Abort, out, noted)?;
    let mut lines = TextSink::new(alloc);
    write!(lines, "refused {why}\n");
    print(lines, out)
}

/// Gives the pending request its answer, and says whether it needed no user.
pub fn meet<W: Write>(
    alloc: Global,
    panel: &mut Panel<'_, '_>,
    device: &mut Option<Device<'_, '_>>,
    holds_delays: bool,
    out: &mut W,
    noted: &mut String,
) -> Result<bool, SittingFault> {
    let Some(Turn::Asks(request)) = panel.turn() else {
        return Ok(false);
    };
    match reply_to(alloc, panel, request, device, holds_delays)? {
        Reply::Given(answer) => give(alloc, panel, request, &answer, out, noted)?,
        Reply::Fault(why) => give_up(alloc, panel, request, &why, out, noted)?,
        Reply::User => return Ok(false),
    }
    Ok(true)
}

/// Lets the method go on until it asks the user or is over, and says where it is. A delay is the
/// user's where delays are held.
pub fn settle<W: Write>(
    alloc: Global,
    panel: &mut Panel<'_, '_>,
    device: &mut Option<Device<'_, '_>>,
    holds_delays: bool,
    out: &mut W,
    noted: &mut String,
) -> Result<Option<Turn>, SittingFault> {
    for _ in 0..MESSAGES {
        let Some(turn) = panel.advance(STEPS) else {
            return Ok(None);
        };
        if !matches!(turn, Turn::Asks(_)) {
            show_end(alloc, turn, out)?;
            return Ok(panel.turn());
        }
        if !meet(alloc, panel, device, holds_delays, out, noted)? {
            return Ok(Some(turn));
        }
    }
    Ok(panel.turn())
}

// What was done, on a line where that isn't shown by itself.
fn show_happened<W: Write>(
    alloc: Global,
    panel: &Panel<'_, '_>,
    happened: &Happened,
    out: &mut W,
) -> Result<(), SittingFault> {
    let mut lines = TextSink::new(alloc);
    if let Happened::Edited(variable, number) = happened {
        push_set(&mut lines.text, panel.image(), *variable, *number)?;
    }
    push_happened(&mut lines, happened);
    print(lines, out)
}

fn take<W: Write>(
    alloc: Global,
    panel: &mut Panel<'_, '_>,
    command: Command,
    out: &mut W,
    noted: &mut String,
) -> Result<Next, SittingFault> {
    let happened = panel.take(alloc, command)?;
    push_done(noted, panel.image(), &happened)?;
    show_happened(alloc, panel, &happened, out)?;
    match happened {
        Happened::Shown
        | Happened::Moved
        | Happened::Edited(_, _)
        | Happened::Started(_)
        | Happened::Answered(_) => Ok(Next::View),
        Happened::Refused(_)
        | Happened::NotStarted(_)
        | Happened::NoEntry
        | Happened::Trapped(_)
        | Happened::Unknown => Ok(Next::Prompt),
    }
}

fn show_help<W: Write>(
    alloc: Global,
    panel: &Panel<'_, '_>,
    number: Option<i64>,
    out: &mut W,
) -> Result<(), SittingFault> {
    let help = help_of(alloc, panel, number)?;
    let mut lines = TextSink::new(alloc);
    push_help(&mut lines, help);
    print(lines, out)
}

/// Does what a line asks for.
pub fn follow<W: Write>(
    alloc: Global,
    panel: &mut Panel<'_, '_>,
    line: Line,
    out: &mut W,
    noted: &mut String,
) -> Result<Next, SittingFault> {
    match line {
        Line::Command(command) => return take(alloc, panel, command, out, noted),
        Line::Help(number) => show_help(alloc, panel, number, out)?,
        Line::Commands => print_text(out, COMMANDS)?,
        Line::Quit => return Ok(Next::End),
        Line::Unknown => show_happened(alloc, panel, &Happened::Unknown, out)?,
    }
    Ok(Next::Prompt)
}

// Shows where the user is.
fn show<W: Write>(alloc: Global, panel: &Panel<'_, '_>, out: &mut W) -> Result<(), SittingFault> {
    let mut lines = TextSink::new(alloc);
    push_view(&mut lines, panel);
    print(lines, out)
}

// Asks for a line and reads it.
fn ask<R: Read, W: Write>(
    alloc: Global,
    panel: &Panel<'_, '_>,
    console: &mut Console<'_, R, W>,
) -> Result<Option<String>, SittingFault> {
    let mut lines = TextSink::new(alloc);
    write!(lines, "{}\n", prompt_of(panel));
    print(lines, console.out)?;
    if console.out.flush().is_err() {
        return Err(SittingFault::Output);
    }
    next_line(alloc, &mut console.input)
}

/// Aborts the method that asks, and each of its abort methods that does.
pub fn leave<W: Write>(
    alloc: Global,
    panel: &mut Panel<'_, '_>,
    device: &mut Option<Device<'_, '_>>,
    out: &mut W,
    noted: &mut String,
) -> Result<(), SittingFault> {
    for _ in 0..ABORTS {
        if !matches!(panel.turn(), Some(Turn::Asks(_))) {
            return Ok(());
        }
        if panel.answer(&Answer::Abort).is_ok() {
            push_answer(noted, panel.image(), &Answer::Abort)?;
        }
        if let Some(Turn::Asks(_)) = settle(alloc, panel, device, false, out, noted)? {
            show(alloc, panel, out)?;
        }
    }
    Ok(())
}

/// Shows where the user is, takes a line, and so on, up to `q` or the end of the lines. A method
/// that asks then is aborted. What is set and answered, by a device as well, is noted as lines of a
/// script.
pub fn converse<R: Read, W: Write>(
    alloc: Global,
    panel: &mut Panel<'_, '_>,
    device: &mut Option<Device<'_, '_>>,
    console: &mut Console<'_, R, W>,
    noted: &mut String,
) -> Result<(), SittingFault> {
    let mut next = Next::View;
    for _ in 0..u64::MAX {
        if matches!(next, Next::View) {
            settle(alloc, panel, device, false, console.out, noted)?;
            show(alloc, panel, console.out)?;
        }
        next = match ask(alloc, panel, console)? {
            Some(line) => {
                let line = line_of(alloc, panel, &line)?;
                follow(alloc, panel, line, console.out, noted)?
            }
            None => Next::End,
        };
        if matches!(next, Next::End) {
            break;
        }
    }
    leave(alloc, panel, device, console.out, noted)
}
