//! The keys of a user on a terminal, one after the other, and the screens that the program draws.
use std::prelude::v1::*;

use crate::conversation::{Next, follow, leave, meet, settle};
use crate::fault::SittingFault;
use crate::input::Bytes;
use edd_device::Device;
use edd_display::print_text;
use edd_instructions::Request;
use edd_panel::{Command, Panel};
use edd_port::Turn;
use legacy_keys::{
    Act, Frame, KEYS, Key, KeyBytes, Keypad, Rows, Shown, Stage, Taken, Window, drawn, fold,
    height_beside,
};
use legacy_panel_lines::{offers_of, prompt_of};
use legacy_screens::{Line, line_of};
use std::alloc::{AllocError, Global};
use std::io::{Read, Write};

/// After so many seconds without a key the input is at its end: a day.
const IDLE: u32 = 86_400;

/// The rows and the columns of a terminal: at least two rows, and one column.
#[derive(Clone, Copy)]
pub struct Size {
    pub rows: usize,
    pub columns: usize,
}

/// A terminal in raw mode.
pub struct Terminal<'t, R, W> {
    bytes: Bytes<R>,
    keys: KeyBytes,
    size: Size,
    has_seconds: bool,
    /// How many seconds have passed since the last key.
    idle: u32,
    out: &'t mut W,
    /// Whether there is a screen below which the cursor goes at the end.
    is_drawn: bool,
}

// What comes from a terminal: a key, a second without one, or the end.
#[derive(Clone, Copy)]
enum Event {
    Key(Key),
    Second,
    End,
}

impl<'t, R: Read, W: Write> Terminal<'t, R, W> {
    /// `has_seconds` says whether a read that gives nothing says that a second has passed, and not
    /// that the input is at its end.
    pub fn new(input: R, size: Size, has_seconds: bool, out: &'t mut W) -> Terminal<'t, R, W> {
        Terminal {
            bytes: Bytes::new(input),
            keys: KeyBytes::new(),
            size,
            has_seconds,
            idle: 0,
            out,
            is_drawn: false,
        }
    }

    fn resize(&mut self, rows: u16, columns: u16) {
        self.size = Size {
            rows: usize::from(rows),
            columns: usize::from(columns),
        };
    }

    // What a byte makes of those before it, if that is a key.
    fn key_of(&mut self, byte: u8) -> Option<Key> {
        match self.keys.take(byte) {
            Taken::Key(key) => Some(key),
            Taken::Before(key) => {
                self.bytes.put_back();
                Some(key)
            }
            Taken::Nothing if self.bytes.is_alone() => self.keys.pause(),
            Taken::Nothing => None,
        }
    }

    // What a read that gave nothing says.
    fn silence(&mut self) -> Event {
        if let Some(key) = self.keys.pause() {
            return Event::Key(key);
        }
        if !self.has_seconds || self.idle >= IDLE {
            return Event::End;
        }
        self.idle = self.idle.saturating_add(1);
        Event::Second
    }

    // What comes next; a second counts where one is waited for, and is passed over elsewhere.
    fn next(&mut self, counts: bool) -> Result<Event, SittingFault> {
        for _ in 0..u64::MAX {
            let event = match self.bytes.next()? {
                Some(byte) => {
                    self.idle = 0;
                    self.key_of(byte).map(Event::Key)
                }
                None => Some(self.silence()),
            };
            match event {
                Some(Event::Second) if !counts => {}
                Some(event) => return Ok(event),
                None => {}
            }
        }
        Ok(Event::End)
    }
}

// What is on the screen: the panel with what is told below it, or a page that is read.
struct Screen {
    stage: Stage,
    rows: Rows,
    value: Option<i64>,
    bits: Option<i64>,
    told: String,
    height: usize,
}

// What the keys have led to, and what is told below the screen up to the next key.
struct Desk {
    keypad: Keypad,
    told: Vec<u8>,
    /// Whether the seconds of a delay are counted, and how many of the pending one have passed.
    has_seconds: bool,
    waited: u32,
}

fn stage_of(panel: &Panel<'_, '_>) -> Stage {
    match panel.turn() {
        Some(Turn::Asks(_)) => Stage::Question,
        Some(_) => Stage::Pause,
        None => match panel.field() {
            Some(_) => Stage::Variable,
            None => Stage::Menu,
        },
    }
}

// The seconds of the pending delay, if one is pending.
fn seconds_of(panel: &Panel<'_, '_>) -> Option<u32> {
    match panel.turn() {
        Some(Turn::Asks(Request::Delay(seconds, _))) => Some(seconds.max(0).unsigned_abs()),
        _ => None,
    }
}

// How many levels the user is below the top. The variable that is open and the method that runs are
// levels, and so is a page that is read.
fn depth_of(panel: &Panel<'_, '_>, stage: Stage) -> usize {
    let place = usize::from(stage_of(panel) != Stage::Menu);
    let page = usize::from(stage == Stage::Page);
    panel.depth().saturating_add(place).saturating_add(page)
}

// What is shown: the panel with what is told below it, or what is told alone where that leaves no
// room.
fn screen_now(
    alloc: Global,
    panel: &Panel<'_, '_>,
    bits: Option<i64>,
    told: &str,
    size: Size,
) -> Result<Screen, AllocError> {
    let offers = offers_of(alloc, panel, bits)?;
    let rows = fold(alloc, &offers.lines, &offers.offers, size.columns)?;
    let told = fold(alloc, told, &[], size.columns)?;
    match height_beside(size.rows, rows.offers.len(), told.offers.len()) {
        Some(height) => Ok(Screen {
            stage: stage_of(panel),
            rows,
            value: offers.value,
            bits: offers.bits,
            told: told.text,
            height,
        }),
        None => Ok(Screen {
            stage: Stage::Page,
            rows: told,
            value: None,
            bits: None,
            told: String::new(alloc),
            height: size.rows.saturating_sub(1),
        }),
    }
}

fn shown_of(screen: &Screen) -> Shown<'_> {
    Shown {
        stage: screen.stage,
        offers: screen.rows.offers.as_slice(),
        begins: screen.value,
        bits: screen.bits,
    }
}

// Draws the screen.
fn draw<W: Write>(
    alloc: Global,
    panel: &Panel<'_, '_>,
    screen: &Screen,
    window: Window,
    left: Option<u32>,
    typed: &str,
    columns: usize,
    out: &mut W,
) -> Result<(), SittingFault> {
    let prompt = match (screen.stage, left) {
        (Stage::Page, _) => String::from_str(alloc, "Enter?")?,
        (_, Some(left)) => format!(in alloc; "{left} s left, Enter?")?,
        (_, None) => String::from_str(alloc, prompt_of(panel))?,
    };
    let frame = Frame {
        rows: &screen.rows.text,
        window,
        told: &screen.told,
        prompt: &prompt,
        typed,
        columns,
    };
    print_text(out, &drawn(alloc, &frame)?)?;
    if out.flush().is_err() {
        return Err(SittingFault::Output);
    }
    Ok(())
}

// The line that a key stands for, if it stands for one.
fn line_asked(alloc: Global, panel: &Panel<'_, '_>, act: Act) -> Result<Option<Line>, AllocError> {
    match act {
        Act::Nothing => Ok(None),
        Act::Number(number) => Ok(Some(Line::Command(Command::Number(number)))),
        Act::Line(text) => Ok(Some(line_of(alloc, panel, &text)?)),
        Act::Enter => Ok(Some(Line::Command(Command::Enter))),
        Act::Back => Ok(Some(Line::Command(Command::Back))),
        Act::Abort => Ok(Some(Line::Command(Command::Abort))),
        Act::Help(number) => Ok(Some(Line::Help(number))),
        Act::Keys => Ok(Some(Line::Commands)),
        Act::Quit => Ok(Some(Line::Quit)),
    }
}

// What is told is kept in memory, so a write of it fails only for lack of that.
fn told_in_memory<T>(told: Result<T, SittingFault>) -> Result<T, SittingFault> {
    match told {
        Err(SittingFault::Output) => Err(SittingFault::Memory),
        other => other,
    }
}

impl Desk {
    fn told(&self) -> &str {
        str::from_utf8(self.told.as_slice()).unwrap_or("")
    }

    // A key on a page: it is read on, or left.
    fn read(&mut self, act: &Act) -> Next {
        match act {
            Act::Nothing => {}
            Act::Quit => return Next::End,
            _ => self.told.clear(),
        }
        Next::Prompt
    }

    // Does what a line asks for, and lets the method that runs go on.
    fn follow(
        &mut self,
        alloc: Global,
        panel: &mut Panel<'_, '_>,
        device: &mut Option<Device<'_, '_>>,
        line: Line,
        noted: &mut String,
    ) -> Result<Next, SittingFault> {
        if matches!(line, Line::Commands) {
            print_text(&mut self.told, KEYS)?;
            return Ok(Next::Prompt);
        }
        let stage = stage_of(panel);
        let holds = self.has_seconds;
        let is_over = matches!(line, Line::Command(Command::Enter))
            && seconds_of(panel).is_some()
            && meet(alloc, panel, device, false, &mut self.told, noted)?;
        let next = if is_over {
            Next::View
        } else {
            follow(alloc, panel, line, &mut self.told, noted)?
        };
        if matches!(next, Next::View) {
            self.waited = 0;
            self.keypad.leave(stage);
            settle(alloc, panel, device, holds, &mut self.told, noted)?;
        }
        Ok(next)
    }

    // How many seconds the pending delay has left, where they are counted.
    fn seconds_left(&self, panel: &Panel<'_, '_>, stage: Stage) -> Option<u32> {
        if !self.has_seconds || stage == Stage::Page {
            return None;
        }
        let seconds = seconds_of(panel)?;
        Some(seconds.saturating_sub(self.waited))
    }

    // Does what a key asks for where this was shown.
    fn take(
        &mut self,
        alloc: Global,
        panel: &mut Panel<'_, '_>,
        device: &mut Option<Device<'_, '_>>,
        stage: Stage,
        act: Act,
        noted: &mut String,
    ) -> Result<Next, SittingFault> {
        if stage == Stage::Page {
            return Ok(self.read(&act));
        }
        self.told.clear();
        match line_asked(alloc, panel, act)? {
            Some(line) => told_in_memory(self.follow(alloc, panel, device, line, noted)),
            None => Ok(Next::Prompt),
        }
    }
}

// Draws the screen, and says which rows of it are seen.
fn show<R: Read, W: Write>(
    alloc: Global,
    panel: &Panel<'_, '_>,
    screen: &Screen,
    left: Option<u32>,
    terminal: &mut Terminal<'_, R, W>,
    keypad: &mut Keypad,
) -> Result<Window, SittingFault> {
    let depth = depth_of(panel, screen.stage);
    let window = keypad.arrive(depth, &shown_of(screen), screen.height)?;
    let columns = terminal.size.columns;
    draw(
        alloc,
        panel,
        screen,
        window,
        left,
        keypad.typed(),
        columns,
        terminal.out,
    )?;
    terminal.is_drawn = true;
    Ok(window)
}

// Draws the screen, takes a key, and does what it asks for. A delay whose time is over goes on as by
// Enter.
fn take_key<R: Read, W: Write>(
    alloc: Global,
    panel: &mut Panel<'_, '_>,
    device: &mut Option<Device<'_, '_>>,
    terminal: &mut Terminal<'_, R, W>,
    desk: &mut Desk,
    noted: &mut String,
) -> Result<Next, SittingFault> {
    let bits = desk.keypad.bits();
    let screen = screen_now(alloc, panel, bits, desk.told(), terminal.size)?;
    let left = desk.seconds_left(panel, screen.stage);
    let window = show(alloc, panel, &screen, left, terminal, &mut desk.keypad)?;
    let event = terminal.next(left.is_some())?;
    let act = match event {
        Event::End => return Ok(Next::End),
        Event::Second => {
            desk.waited = desk.waited.saturating_add(1);
            if left.unwrap_or(0) > 1 {
                return Ok(Next::Prompt);
            }
            Act::Enter
        }
        Event::Key(Key::Size { rows, columns }) => {
            terminal.resize(rows, columns);
            return Ok(Next::Prompt);
        }
        Event::Key(key) => desk
            .keypad
            .press(alloc, key, &shown_of(&screen), window.height)?,
    };
    desk.take(alloc, panel, device, screen.stage, act, noted)
}

fn take_keys<R: Read, W: Write>(
    alloc: Global,
    panel: &mut Panel<'_, '_>,
    device: &mut Option<Device<'_, '_>>,
    terminal: &mut Terminal<'_, R, W>,
    noted: &mut String,
) -> Result<(), SittingFault> {
    let mut desk = Desk {
        keypad: Keypad::new(alloc),
        told: Vec::new(alloc),
        has_seconds: terminal.has_seconds,
        waited: 0,
    };
    for _ in 0..u64::MAX {
        let next = take_key(alloc, panel, device, terminal, &mut desk, noted)?;
        if matches!(next, Next::End) {
            break;
        }
    }
    Ok(())
}

/// Draws where the user is, takes a key, and so on, up to the key that ends or the end of the
/// input. What comes then, and what is noted, is as where a user types lines.
pub fn converse_by_keys<R: Read, W: Write>(
    alloc: Global,
    panel: &mut Panel<'_, '_>,
    device: &mut Option<Device<'_, '_>>,
    terminal: &mut Terminal<'_, R, W>,
    noted: &mut String,
) -> Result<(), SittingFault> {
    let ended = take_keys(alloc, panel, device, terminal, noted);
    if terminal.is_drawn && !matches!(ended, Err(SittingFault::Output)) {
        print_text(terminal.out, "\n")?;
    }
    ended?;
    leave(alloc, panel, device, terminal.out, noted)
}
