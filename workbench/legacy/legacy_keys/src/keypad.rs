//! The state of a user's keys: what is selected at each level, what is typed, and which lines are
//! seen.
use std::prelude::v1::*;

use crate::act::Act;
use crate::key::Key;
use crate::moves::{at_or_after, at_or_before, selected_offer, with_about, with_number};
use crate::shown::{Offer, Shown, Stage};
use crate::window::{Window, first_around};
use std::alloc::{AllocError, Global};
use std::mem;

// What is selected at a level, if that was said yet, with what its line offered, and the first line
// that is seen.
#[derive(Clone, Copy)]
struct Mark {
    selected: Option<usize>,
    offer: Option<Offer>,
    first: usize,
}

const NEW: Mark = Mark {
    selected: None,
    offer: None,
    first: 0,
};

/// What a user has selected and typed.
pub struct Keypad {
    mark: Mark,
    // The marks of the levels above the one where the user is.
    above: Vec<Mark>,
    typed: String,
    // The bits of the value that is edited, once one was changed.
    bits: Option<i64>,
}

// The bits with those of a number changed: cleared where all are set, else set.
fn with_changed(bits: i64, number: i64) -> i64 {
    if bits & number == number {
        bits & !number
    } else {
        bits | number
    }
}

// The line that is selected where one was: that which is about the same, or else the next one.
fn select_again(offers: &[Option<Offer>], line: usize, was: Option<Offer>) -> Option<usize> {
    if let Some(was) = was {
        let now = selected_offer(offers, Some(line));
        let is_same = matches!(now, Some(now) if now.about == was.about);
        if !is_same && let Some(line) = with_about(offers, was.about) {
            return Some(line);
        }
    }
    at_or_after(offers, line).or(at_or_before(offers, line))
}

// The line that is selected of those that can be.
fn select(shown: &Shown<'_>, mark: Mark) -> Option<usize> {
    let offers = shown.offers;
    if let Some(line) = mark.selected {
        return select_again(offers, line, mark.offer);
    }
    if let Some(number) = shown.begins
        && let Some(line) = with_number(offers, number)
    {
        return Some(line);
    }
    at_or_after(offers, 0)
}

// The line that a key selects; where there is none in its direction, the one that is selected.
fn select_by(offers: &[Option<Offer>], line: usize, key: Key, height: usize) -> usize {
    let found = match key {
        Key::Up => match line.checked_sub(1) {
            Some(above) => at_or_before(offers, above),
            None => None,
        },
        Key::Down => at_or_after(offers, line.saturating_add(1)),
        Key::Home => at_or_after(offers, 0),
        Key::End => at_or_before(offers, usize::MAX),
        Key::PageUp => at_or_after(offers, line.saturating_sub(height)),
        Key::PageDown => at_or_before(offers, line.saturating_add(height)),
        _ => None,
    };
    found.unwrap_or(line)
}

// The first line that is seen after a key, where no line can be selected.
fn scroll_by(first: usize, key: Key, height: usize) -> usize {
    match key {
        Key::Up => first.saturating_sub(1),
        Key::Down => first.saturating_add(1),
        Key::Home => 0,
        Key::End => usize::MAX,
        Key::PageUp => first.saturating_sub(height),
        Key::PageDown => first.saturating_add(height),
        _ => first,
    }
}

impl Keypad {
    pub fn new(alloc: Global) -> Keypad {
        Keypad {
            mark: NEW,
            above: Vec::new(alloc),
            typed: String::new(alloc),
            bits: None,
        }
    }

    /// What is typed.
    pub fn typed(&self) -> &str {
        self.typed.as_str()
    }

    /// The bits of the value that is edited, once one was changed.
    pub fn bits(&self) -> Option<i64> {
        self.bits
    }

    // Goes to a level, counted from the top: to one that was left with what was selected there.
    fn go_to(&mut self, depth: usize) -> Result<(), AllocError> {
        if let Some(mark) = self.above.as_slice().get(depth) {
            self.mark = *mark;
            self.above.truncate(depth);
        }
        for _ in self.above.len()..depth {
            self.above.push(self.mark)?;
            self.mark = NEW;
        }
        Ok(())
    }

    // The first line that is seen where this one is selected.
    fn first_with(&self, shown: &Shown<'_>, line: usize, height: usize) -> usize {
        let last = shown.offers.len().saturating_sub(height);
        let first = if at_or_after(shown.offers, 0) == Some(line) {
            0
        } else {
            self.mark.first.min(last)
        };
        first_around(first, line, height)
    }

    /// Says what is seen at a level, counted from the top, in a window of this height, or of one
    /// line. What is selected is kept for a level that comes back.
    pub fn arrive(
        &mut self,
        depth: usize,
        shown: &Shown<'_>,
        height: usize,
    ) -> Result<Window, AllocError> {
        self.go_to(depth)?;
        let height = height.max(1);
        let selected = select(shown, self.mark);
        let first = match selected {
            Some(line) => self.first_with(shown, line, height),
            None => {
                let last = shown.offers.len().saturating_sub(height);
                self.mark.first.min(last)
            }
        };
        let offer = selected_offer(shown.offers, selected);
        self.mark = Mark {
            selected,
            offer,
            first,
        };
        Ok(Window {
            first,
            height,
            selected,
        })
    }

    // Selects another line, or shows others where none can be selected.
    fn turn(&mut self, key: Key, shown: &Shown<'_>, height: usize) {
        match self.mark.selected {
            Some(line) => {
                let line = select_by(shown.offers, line, key, height);
                self.mark.selected = Some(line);
                self.mark.offer = None;
                self.typed.clear();
            }
            None => self.mark.first = scroll_by(self.mark.first, key, height),
        }
    }

    // The line that is typed.
    fn line(&mut self, alloc: Global) -> Act {
        Act::Line(mem::replace(&mut self.typed, String::new(alloc)))
    }

    // The number at the line that is selected, or Enter where none is.
    fn number(&self, shown: &Shown<'_>) -> Act {
        match selected_offer(shown.offers, self.mark.selected) {
            Some(offer) => Act::Number(offer.number),
            None => Act::Enter,
        }
    }

    // Enter at a menu.
    fn open(&mut self, alloc: Global, shown: &Shown<'_>) -> Act {
        if self.typed.is_empty() {
            self.number(shown)
        } else {
            self.line(alloc)
        }
    }

    // Enter at a variable: it is left where nothing was changed.
    fn set(&mut self, alloc: Global, shown: &Shown<'_>) -> Act {
        if !self.typed.is_empty() {
            return self.line(alloc);
        }
        match (shown.bits, self.bits) {
            (Some(_), Some(bits)) => Act::Number(bits),
            (Some(_), None) => Act::Enter,
            (None, _) => self.number(shown),
        }
    }

    // Enter at a question.
    fn reply(&mut self, alloc: Global, shown: &Shown<'_>) -> Act {
        if !self.typed.is_empty() {
            return self.line(alloc);
        }
        match shown.bits {
            Some(bits) => Act::Number(bits),
            None => self.number(shown),
        }
    }

    // The help of what is selected.
    fn help(&self, shown: &Shown<'_>) -> Act {
        match selected_offer(shown.offers, self.mark.selected) {
            Some(offer) => Act::Help(Some(offer.number)),
            None => Act::Help(None),
        }
    }

    // A character at a menu: a digit of the number of an entry, or a command.
    fn command(&mut self, character: char, shown: &Shown<'_>) -> Result<Act, AllocError> {
        match character {
            '0'..='9' => {
                self.typed.push(character)?;
                Ok(Act::Nothing)
            }
            'b' => Ok(Act::Back),
            'h' => Ok(self.help(shown)),
            'q' => Ok(Act::Quit),
            '?' => Ok(Act::Keys),
            _ => Ok(Act::Nothing),
        }
    }

    // A character of a value. A space changes the bits that are selected, where nothing is typed.
    fn write(&mut self, character: char, shown: &Shown<'_>) -> Result<Act, AllocError> {
        let offer = selected_offer(shown.offers, self.mark.selected);
        if character == ' '
            && self.typed.is_empty()
            && let (Some(bits), Some(offer)) = (shown.bits, offer)
        {
            self.bits = Some(with_changed(bits, offer.number));
            return Ok(Act::Nothing);
        }
        self.typed.push(character)?;
        Ok(Act::Nothing)
    }

    fn at_menu(
        &mut self,
        alloc: Global,
        key: Key,
        shown: &Shown<'_>,
        height: usize,
    ) -> Result<Act, AllocError> {
        match key {
            Key::Enter | Key::Right => Ok(self.open(alloc, shown)),
            Key::Left | Key::Escape => Ok(Act::Back),
            Key::Backspace => match self.typed.pop() {
                Some(_) => Ok(Act::Nothing),
                None => Ok(Act::Back),
            },
            Key::Character(character) => self.command(character, shown),
            Key::Interrupt | Key::EndOfInput => Ok(Act::Quit),
            Key::Up | Key::Down | Key::Home | Key::End | Key::PageUp | Key::PageDown => {
                self.turn(key, shown, height);
                Ok(Act::Nothing)
            }
            Key::Size { .. } => Ok(Act::Nothing),
        }
    }

    fn at_variable(
        &mut self,
        alloc: Global,
        key: Key,
        shown: &Shown<'_>,
        height: usize,
    ) -> Result<Act, AllocError> {
        match key {
            Key::Enter => Ok(self.set(alloc, shown)),
            Key::Escape => Ok(Act::Back),
            Key::Left if self.typed.is_empty() => Ok(Act::Back),
            Key::Left | Key::Right | Key::Size { .. } => Ok(Act::Nothing),
            Key::Interrupt | Key::EndOfInput => Ok(Act::Quit),
            _ => self.at_value(key, shown, height),
        }
    }

    fn at_question(
        &mut self,
        alloc: Global,
        key: Key,
        shown: &Shown<'_>,
        height: usize,
    ) -> Result<Act, AllocError> {
        match key {
            Key::Enter => Ok(self.reply(alloc, shown)),
            Key::Escape | Key::Interrupt | Key::EndOfInput => Ok(Act::Abort),
            Key::Left | Key::Right | Key::Size { .. } => Ok(Act::Nothing),
            _ => self.at_value(key, shown, height),
        }
    }

    // What the keys of a value are everywhere.
    fn at_value(&mut self, key: Key, shown: &Shown<'_>, height: usize) -> Result<Act, AllocError> {
        match key {
            Key::Character(character) => self.write(character, shown),
            Key::Backspace => {
                self.typed.pop();
                Ok(Act::Nothing)
            }
            _ => {
                self.turn(key, shown, height);
                Ok(Act::Nothing)
            }
        }
    }

    fn at_page(&mut self, key: Key, shown: &Shown<'_>, height: usize) -> Act {
        match key {
            Key::Interrupt | Key::EndOfInput => Act::Quit,
            Key::Up | Key::Down | Key::Home | Key::End | Key::PageUp | Key::PageDown => {
                self.turn(key, shown, height);
                Act::Nothing
            }
            Key::Enter
            | Key::Escape
            | Key::Left
            | Key::Right
            | Key::Backspace
            | Key::Character(_) => Act::Back,
            Key::Size { .. } => Act::Nothing,
        }
    }

    /// What a key asks for where this is shown in a window of this height. At a menu, Enter opens
    /// the selected entry where nothing is typed.
    pub fn press(
        &mut self,
        alloc: Global,
        key: Key,
        shown: &Shown<'_>,
        height: usize,
    ) -> Result<Act, AllocError> {
        let act = match shown.stage {
            Stage::Menu => self.at_menu(alloc, key, shown, height)?,
            Stage::Variable => self.at_variable(alloc, key, shown, height)?,
            Stage::Question => self.at_question(alloc, key, shown, height)?,
            Stage::Pause => at_pause(key),
            Stage::Page => self.at_page(key, shown, height),
        };
        if !matches!(act, Act::Nothing) {
            self.typed.clear();
        }
        Ok(act)
    }

    /// Forgets what was selected of a question, and the bits that were changed: something else is
    /// shown.
    pub fn leave(&mut self, stage: Stage) {
        self.bits = None;
        if stage == Stage::Question {
            self.mark = NEW;
        }
    }
}

// While a method runs it may go on, or the program ends.
fn at_pause(key: Key) -> Act {
    match key {
        Key::Enter => Act::Enter,
        Key::Character('?') => Act::Keys,
        Key::Character('q') | Key::Interrupt | Key::EndOfInput => Act::Quit,
        _ => Act::Nothing,
    }
}
