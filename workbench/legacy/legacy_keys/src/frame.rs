//! How a screen is drawn, by the escape sequences of terminals.
use std::prelude::v1::*;

use crate::widths::{columns_of, width_of};
use crate::window::Window;
use edd_sinks::TextSink;
use std::alloc::{AllocError, Global};

/// Puts the cursor at the first row.
const HOME: &str = "\x1b[H";

/// Clears the row of the cursor. It stands before a line, since behind one that fills its row some
/// terminals would clear its last character.
const CLEAR_ROW: &str = "\x1b[K";

const CLEAR_BELOW: &str = "\x1b[J";

const REVERSE: &str = "\x1b[7m";

const PLAIN: &str = "\x1b[0m";

/// What a screen has: of the rows those that are in the window, then what is told, and a row that
/// asks, with what was typed.
#[derive(Clone, Copy)]
pub struct Frame<'a> {
    pub rows: &'a str,
    pub window: Window,
    pub told: &'a str,
    pub prompt: &'a str,
    pub typed: &'a str,
    pub columns: usize,
}

// As much of a text as so many columns take.
fn push_cut(screen: &mut TextSink, text: &str, columns: usize) {
    let mut left = columns;
    for character in text.chars() {
        let Some(rest) = left.checked_sub(width_of(character)) else {
            return;
        };
        left = rest;
        screen.push(character);
    }
}

// The end of a text, as much as so many columns take.
fn push_end(screen: &mut TextSink, text: &str, columns: usize) {
    let mut over = columns_of(text).saturating_sub(columns);
    for character in text.chars() {
        if over > 0 {
            over = over.saturating_sub(width_of(character));
        } else {
            screen.push(character);
        }
    }
}

fn push_row(screen: &mut TextSink, text: &str, columns: usize) {
    screen.push_str(CLEAR_ROW);
    push_cut(screen, text, columns);
    screen.push('\n');
}

fn push_selected(screen: &mut TextSink, text: &str, columns: usize) {
    screen.push_str(CLEAR_ROW);
    screen.push_str(REVERSE);
    push_cut(screen, text, columns);
    screen.push_str(PLAIN);
    screen.push('\n');
}

fn push_window(screen: &mut TextSink, frame: &Frame<'_>) {
    let window = frame.window;
    for (place, line) in frame
        .rows
        .lines()
        .enumerate()
        .skip(window.first)
        .take(window.height)
    {
        if window.selected == Some(place) {
            push_selected(screen, line, frame.columns);
        } else {
            push_row(screen, line, frame.columns);
        }
    }
}

// The row that asks. Its last column stays free, for the cursor.
fn push_prompt(screen: &mut TextSink, frame: &Frame<'_>) {
    let columns = frame.columns.saturating_sub(1);
    screen.push_str(CLEAR_ROW);
    push_cut(screen, frame.prompt, columns);
    let left = columns.saturating_sub(columns_of(frame.prompt));
    if left > 0 {
        screen.push(' ');
    }
    push_end(screen, frame.typed, left.saturating_sub(1));
}

/// What draws a screen over the one that is there.
pub fn drawn(alloc: Global, frame: &Frame<'_>) -> Result<String, AllocError> {
    let mut screen = TextSink::new(alloc);
    screen.push_str(HOME);
    push_window(&mut screen, frame);
    for line in frame.told.lines() {
        push_row(&mut screen, line, frame.columns);
    }
    push_prompt(&mut screen, frame);
    screen.push_str(CLEAR_BELOW);
    screen.finish()
}
