//! Which word of a script is wrong, and why.

mod lines;
mod names;
mod reasons;
mod words;

pub use names::{script_name_before, script_names};
pub use reasons::{ScriptHelp, ScriptSlip, nearest_command, nearest_method, nearest_variable};

use crate::Finding;
use crate::core::made;
use core_std::alloc::Global;
use edd_loader::Image;
use edd_script::{Line, parse_line, text_of};
use edd_source::{Confidence, Fix, Span};
use edd_syntax::answer::Answer;
use lines::wrong_in_line;
use reasons::{help_of, range_help};
use words::words_of;

/// How a script is wrong.
#[derive(Clone, Copy, Debug, PartialEq, Eq)]
pub enum Wrong {
    /// A line can't be read.
    Line,
    /// A value that is set is out of range.
    Range,
    /// An answer sets a value out of range.
    Answer,
}

/// The first word of a script that is wrong in this way, with what helps.
pub fn explain_script(image: &Image<'_>, script: &[u8], wrong: Wrong) -> Option<Finding> {
    let mut start: usize = 0;
    for bytes in script.split_inclusive(|byte| *byte == b'\n') {
        if let Some(found) = explain_line(image, bytes, wrong) {
            return Some(found.moved(0, start));
        }
        start = start.saturating_add(bytes.len());
    }
    None
}

// What is wrong with a line of the script, if it is in this way.
fn explain_line(image: &Image<'_>, bytes: &[u8], wrong: Wrong) -> Option<Finding> {
    let (found, finding) = explain_script_line(image, bytes)?;
    (found == wrong).then_some(finding)
}

/// How a line of a script is wrong, and its first word that is, with what helps.
pub fn explain_script_line(image: &Image<'_>, bytes: &[u8]) -> Option<(Wrong, Finding)> {
    let line = text_of(bytes).unwrap_or_default();
    match made(parse_line(Global, image, bytes)) {
        None => {
            let (word, why) = wrong_in_line(image, line);
            let help = help_of(image, word.text, why);
            let fix = near_fix(word.span(), &help);
            let mut finding = Finding::at(Some(word.span()));
            finding.propose(help, fix);
            Some((Wrong::Line, finding))
        }
        Some(Line::Set(variable, value)) => {
            let found = out_of_range(image, line, &[(variable, value)])?;
            Some((Wrong::Range, found))
        }
        Some(Line::Answer(Answer::Go { sets, .. })) => {
            let found = out_of_range(image, line, &sets)?;
            Some((Wrong::Answer, found))
        }
        Some(Line::Answer(Answer::Abort) | Line::Blank) => None,
    }
}

// The change that a help says, where it is one.
fn near_fix(span: Span, help: &ScriptHelp) -> Option<Fix> {
    match help {
        ScriptHelp::NoVariable {
            near: Some(near), ..
        } => Some(Fix::replace(span, near.as_str(), Confidence::Guess)),
        _ => None,
    }
}

// The first value of a line that is out of the range of its variable.
fn out_of_range(
    image: &Image<'_>,
    line: &str,
    sets: &[(edd_syntax::numbers::VarNo, i64)],
) -> Option<Finding> {
    let words = words_of(line);
    let mut pairs = words.iter().skip(2).zip(sets);
    pairs.find_map(|(word, (variable, value))| {
        let help = range_help(image, *variable, *value)?;
        Some(finding(word.span(), help))
    })
}

fn finding(span: Span, help: ScriptHelp) -> Finding {
    let mut finding = Finding::at(Some(span));
    finding.say(help);
    finding
}
