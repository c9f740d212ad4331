//! The tokens of a text that may have lexical faults.

use crate::core::lex;
use edd_lexer::token::{Token, TokenKind};
use edd_source::tokens::{tokens_before, word_of};

/// How many lines with faults are left out. The text after one more has no tokens.
const MOST_FAULTS: usize = 16;

/// How often an earlier line is taken for the one at fault.
const MOST_TRIES: usize = 8;

/// The longest line with a fault of which the beginning is kept, in bytes.
const LONGEST: usize = 400;

/// The most bytes of a text that has tokens.
const MOST_BYTES: usize = 1_048_576;

/// A part of a text.
#[derive(Clone, Copy)]
struct Part {
    /// Where it begins.
    start: usize,
    /// How many lines are before it.
    lines: u32,
}

/// What is kept of a text before a line at fault.
struct Sound {
    tokens: Vec<Token>,
    /// That line, counted from 1.
    line: u32,
}

/// The tokens of a text. A line with a lexical fault has those before the fault alone, and a text
/// that is too long has none.
pub(crate) fn tokens_of(text: &[u8]) -> Vec<Token> {
    let mut tokens = Vec::new();
    if MOST_BYTES < text.len() {
        return tokens;
    }
    let mut part = Part { start: 0, lines: 0 };
    for _ in 0..MOST_FAULTS {
        let rest = behind(text, part.start);
        let fault = match lex(rest) {
            Ok(found) => {
                tokens.extend(shifted(found, part));
                break;
            }
            Err(fault) => fault,
        };
        let Some(line) = fault.line() else {
            break;
        };
        part = append_sound(&mut tokens, rest, part, line);
    }
    tokens
}

/// Adds what is kept of a part whose line is at fault, and returns the part behind that line.
fn append_sound(tokens: &mut Vec<Token>, text: &[u8], part: Part, fault: u32) -> Part {
    let sound = sound_before(text, fault);
    tokens.extend(shifted(sound.tokens, part));
    let start = line_start(text, sound.line);
    let end = line_start(text, sound.line.saturating_add(1));
    let line = Part {
        start: part.start.saturating_add(start),
        lines: part.lines.saturating_add(sound.line.saturating_sub(1)),
    };
    let kept = beginning(text.get(start..end).unwrap_or_default());
    tokens.extend(shifted(kept, line));
    Part {
        start: part.start.saturating_add(end),
        lines: part.lines.saturating_add(sound.line),
    }
}

/// What is kept of a text before a line at fault. An open comment or string has its fault at its end,
/// and an earlier line that is to be left out.
fn sound_before(text: &[u8], fault: u32) -> Sound {
    let mut line = fault;
    for _ in 0..MOST_TRIES {
        let head = text.get(..line_start(text, line)).unwrap_or_default();
        match lex(head) {
            Ok(mut tokens) => {
                if let Some(earlier) = long_string(head, &tokens) {
                    tokens.truncate(tokens_before(&tokens, earlier));
                    line = earlier;
                }
                return Sound { tokens, line };
            }
            Err(fault) => line = fault.line().unwrap_or(1),
        }
    }
    Sound {
        tokens: Vec::new(),
        line,
    }
}

/// The line of the first string that goes over the end of a line: most often its quote is missing.
fn long_string(text: &[u8], tokens: &[Token]) -> Option<u32> {
    let is_long =
        |token: &&Token| token.kind == TokenKind::String && word_of(text, token).contains('\n');
    Some(tokens.iter().find(is_long)?.line)
}

/// The tokens of a line before its fault: those of the longest beginning that has tokens.
fn beginning(line: &[u8]) -> Vec<Token> {
    if LONGEST < line.len() {
        return Vec::new();
    }
    let beginnings = (1..=line.len()).rev().map(|end| line.get(..end));
    beginnings
        .flatten()
        .find_map(|beginning| lex(beginning).ok())
        .unwrap_or_default()
}

/// Tokens of a part as tokens of the text.
fn shifted(tokens: Vec<Token>, part: Part) -> impl Iterator<Item = Token> {
    let shift = u32::try_from(part.start).unwrap_or(u32::MAX);
    tokens.into_iter().map(move |token| Token {
        start: token.start.saturating_add(shift),
        end: token.end.saturating_add(shift),
        line: token.line.saturating_add(part.lines),
        kind: token.kind,
    })
}

/// Where a line begins that is counted from 1; the end of the text where it has fewer.
fn line_start(text: &[u8], line: u32) -> usize {
    let before = usize::try_from(line.saturating_sub(1)).unwrap_or(usize::MAX);
    text.split_inclusive(|byte| *byte == b'\n')
        .take(before)
        .map(<[u8]>::len)
        .sum()
}

fn behind(text: &[u8], start: usize) -> &[u8] {
    text.get(start..).unwrap_or_default()
}
