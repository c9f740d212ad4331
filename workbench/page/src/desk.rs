//! A desk: an instrument that is open, and its device.
use crate::states::{State, ValueText, state_of, turn_word, value_text};
use crate::texts::{device_fault_text, words_text};
use crate::{Stop, json};
use core::str::from_utf8;
use edd_device::{Device, DeviceFault};
use edd_dump::{Sections, variants};
use edd_instructions::Request;
use edd_loader::{Image, LoadFault, load};
use edd_machine::{Values, ValuesFault};
use edd_panel::{Command, Happened, Panel, start_values};
use edd_port::Turn;
use edd_syntax::answer::Answer;
use edd_syntax::numbers::{ItemNo, MethNo, VarNo};
use legacy_panel_lines::{
    TextSink, push_answer, push_end, push_happened, push_request, push_start,
};
use legacy_screens::{Line, Page, help_of, line_of, page_of};
use serde::Serialize;
use std::alloc::Global;
use std::string::String;
use std::vec::Vec;

/// How many languages are offered.
const MOST_LANGUAGES: usize = 64;

pub struct Desk {
    // What borrows stands before what it borrows of, since it is dropped first.
    panel: Panel<'static, 'static>,
    device: Option<Device<'static, 'static>>,
    /// The instrument, and then the device.
    _images: Vec<Image<'static>>,
    _bytes: Vec<Vec<u8>>,
    language: String,
    /// The method that was started last, and its script.
    method: Option<MethNo>,
    noted: String,
}

/// What a line has done.
#[derive(Serialize)]
pub struct Taken {
    said: String,
    /// Whether something is shown anew.
    is_done: bool,
    /// The name of the method that was started.
    started: Option<String>,
    step: Option<Step>,
}

/// A request of a method, and its answer as a line of a script.
#[derive(Serialize)]
pub struct Step {
    request: String,
    answer: String,
}

/// How far a method went.
#[derive(Serialize)]
pub struct Gone {
    turn: &'static str,
    said: String,
    changes: Vec<ValueText>,
}

/// What a device answers, if it does.
#[derive(Serialize)]
pub struct Replied {
    is_answered: bool,
    said: String,
    step: Option<Step>,
}

/// The same for as long as what it lies in is not moved or dropped.
fn lasting<T: ?Sized>(thing: &T) -> &'static T {
    // SAFETY: a desk keeps the lists in which it lies, does not change them, and drops them last.
    unsafe { &*core::ptr::from_ref(thing) }
}

fn loaded(bytes: &Vec<u8>) -> Result<Image<'static>, Stop> {
    load(Global, lasting(bytes.as_slice()))
        .map_err(|fault| Stop::of(&fault, matches!(fault, LoadFault::Memory)))
}

fn values_of(image: &Image<'_>) -> Result<Values, Stop> {
    let count = usize::from(image.counts().variables);
    let given = Vec::from_elem(Global, None, count)?;
    start_values(Global, image, &given)
        .map_err(|fault| Stop::of(&fault, matches!(fault, ValuesFault::Memory)))
}

impl Desk {
    pub fn open(image: Vec<u8>, language: &[u8], device: Option<Vec<u8>>) -> Result<Desk, Stop> {
        let language = String::from_str(Global, from_utf8(language).unwrap_or(""))?;
        let mut bytes = Vec::with_capacity(Global, 2)?;
        let mut images = Vec::with_capacity(Global, 2)?;
        let has_device = device.is_some();
        bytes.push(image)?;
        if let Some(device) = device {
            bytes.push(device)?;
        }
        for one in &bytes {
            images.push(loaded(one)?)?;
        }
        let instrument: &'static Image<'static> = lasting(&images[0]);
        let device = match has_device {
            true => Some(Device::new(Global, instrument, lasting(&images[1]))?),
            false => None,
        };
        let values = values_of(instrument)?;
        let Some(panel) = Panel::open(Global, instrument, lasting(language.as_str()), values)
        else {
            return Err(Stop::of(&ValuesFault::Range, false));
        };
        Ok(Desk {
            panel,
            device,
            _images: images,
            _bytes: bytes,
            language,
            method: None,
            noted: String::new(Global),
        })
    }

    pub fn state(&self) -> Result<State, Stop> {
        Ok(state_of(&self.panel)?)
    }

    fn request(&self) -> Result<Option<String>, Stop> {
        match self.panel.turn() {
            Some(Turn::Asks(request)) => Ok(Some(self.request_text(request)?)),
            _ => Ok(None),
        }
    }

    fn request_text(&self, request: Request) -> Result<String, Stop> {
        let mut text = TextSink::new(Global);
        push_request(&mut text, &page_of(&self.panel), request);
        Ok(text.finish()?)
    }

    fn note(&mut self, request: String, answer: &Answer) -> Result<Step, Stop> {
        let mut line = String::new(Global);
        push_answer(&mut line, self.panel.image(), answer)?;
        self.noted.push_str(line.as_str())?;
        Ok(Step {
            request,
            answer: line,
        })
    }

    fn start(&mut self, method: MethNo) -> Result<String, Stop> {
        self.method = Some(method);
        self.noted.clear();
        push_start(&mut self.noted, self.panel.image(), self.panel.values())?;
        Ok(self.name(ItemNo::Method(method))?)
    }

    fn name(&self, item: ItemNo) -> Result<String, Stop> {
        Ok(crate::texts::name_text(self.panel.image(), item)?)
    }

    fn command(&mut self, command: Command) -> Result<Taken, Stop> {
        let request = self.request()?;
        let happened = self.panel.take(Global, command)?;
        let mut said = TextSink::new(Global);
        push_happened(&mut said, &happened);
        let mut taken = Taken {
            said: said.finish()?,
            is_done: true,
            started: None,
            step: None,
        };
        match happened {
            Happened::Shown | Happened::Moved | Happened::Edited(_, _) => {}
            Happened::Started(method) => taken.started = Some(self.start(method)?),
            Happened::Answered(answer) => {
                taken.step = Some(self.note(request.unwrap_or(String::new(Global)), &answer)?);
            }
            _ => taken.is_done = false,
        }
        Ok(taken)
    }

    pub fn take(&mut self, line: &str) -> Result<Taken, Stop> {
        match line_of(Global, &self.panel, line)? {
            Line::Command(command) => self.command(command),
            Line::Help(_) | Line::Commands | Line::Quit | Line::Unknown => {
                let mut said = TextSink::new(Global);
                push_happened(&mut said, &Happened::Unknown);
                Ok(Taken {
                    said: said.finish()?,
                    is_done: false,
                    started: None,
                    step: None,
                })
            }
        }
    }

    fn changes(&self, before: &[i64]) -> Result<Vec<ValueText>, Stop> {
        let mut changes = Vec::new(Global);
        for (number, now) in (0..).zip(self.panel.values().numbers.iter()) {
            if before.get(usize::from(number)) != Some(now) {
                changes.push(value_text(self.panel.image(), None, VarNo(number), *now)?)?;
            }
        }
        Ok(changes)
    }

    pub fn go(&mut self, steps: u32) -> Result<Gone, Stop> {
        let before = Vec::from_slice(Global, self.panel.values().numbers.as_slice())?;
        let turn = self.panel.advance(steps);
        let mut said = TextSink::new(Global);
        if let Some(turn) = turn {
            push_end(&mut said, turn);
        }
        Ok(Gone {
            turn: turn_word(turn),
            said: said.finish()?,
            changes: self.changes(&before)?,
        })
    }

    /// What the device answers to a request, or its fault, at which the method gets an abort.
    fn answer_of(&mut self, request: &Request) -> Result<(Option<Answer>, Option<String>), Stop> {
        let Some(device) = &mut self.device else {
            return Ok((None, None));
        };
        match device.reply(Global, request, self.panel.values()) {
            Ok(answer) => Ok((answer, None)),
            Err(DeviceFault::Memory) => Err(Stop::Memory),
            Err(fault) => {
                let said = device_fault_text(device, fault)?;
                Ok((Some(Answer::Abort), Some(said)))
            }
        }
    }

    pub fn reply(&mut self) -> Result<Replied, Stop> {
        let mut replied = Replied {
            is_answered: false,
            said: String::new(Global),
            step: None,
        };
        let Some(Turn::Asks(request)) = self.panel.turn() else {
            return Ok(replied);
        };
        let text = self.request_text(request)?;
        let (answer, fault) = self.answer_of(&request)?;
        if let Some(fault) = fault {
            replied.said = std::format!(in Global; "refused {fault}\n")?;
        }
        if let Some(answer) = answer
            && self.panel.answer(&answer).is_ok()
        {
            replied.is_answered = true;
            replied.step = Some(self.note(text, &answer)?);
        }
        Ok(replied)
    }

    pub fn speak(&mut self, code: &str) -> Result<(), Stop> {
        if self.panel.turn().is_some() {
            return Err(Stop::Unknown);
        }
        let language = String::from_str(Global, code)?;
        let numbers = Vec::from_slice(Global, self.panel.values().numbers.as_slice())?;
        let (image, words) = (self.panel.image(), lasting(language.as_str()));
        let Some(panel) = Panel::open(Global, image, words, Values { numbers }) else {
            return Err(Stop::Unknown);
        };
        self.panel = panel;
        self.language = language;
        Ok(())
    }

    pub fn languages(&self) -> Result<Vec<&'static str>, Stop> {
        let mut codes: Vec<&'static str> = Vec::new(Global);
        let Some(sections) = Sections::read(self.panel.image().bytes()) else {
            return Ok(codes);
        };
        for found in sections.strings().flat_map(variants) {
            if !codes.contains(&found.code) && codes.len() < MOST_LANGUAGES {
                codes.push(found.code)?;
            }
        }
        Ok(codes)
    }

    pub fn help(&self, number: u32) -> Result<Vec<u8>, Stop> {
        match help_of(Global, &self.panel, Some(i64::from(number)))? {
            Some(words) => Ok(words_text(words)?.into_bytes()),
            None => Err(Stop::Unknown),
        }
    }

    pub fn device_values(&self) -> Result<Vec<ValueText>, Stop> {
        let mut values = Vec::new(Global);
        let Some(device) = &self.device else {
            return Ok(values);
        };
        let page = Page {
            image: device.image(),
            language: self.language.as_str(),
        };
        let numbers = Vec::from_slice(Global, device.numbers())?;
        let now = Values { numbers };
        for (number, value) in (0..).zip(device.numbers()) {
            let variable = VarNo(number);
            let label = page.label(Global, &now, ItemNo::Variable(variable), None)?;
            let label = Some(words_text(label)?);
            values.push(value_text(page.image, label, variable, *value)?)?;
        }
        Ok(values)
    }

    /// The name of the last method, and its script.
    pub fn script(&self) -> Result<Vec<u8>, Stop> {
        let Some(method) = self.method else {
            return Err(Stop::Unknown);
        };
        let name = self.name(ItemNo::Method(method))?;
        json(&(name.as_str(), self.noted.as_str()))
    }
}
