//! Which word of a line can't be read.

use super::reasons::{ScriptSlip, Why};
use super::words::{Word, word_at, words_of};
use edd_loader::Image;
use edd_script::{code, number, variable};

/// What is wrong with a line that can't be read.
pub(super) fn wrong_in_line<'a>(image: &Image<'_>, line: &'a str) -> (Word<'a>, Why) {
    let words = words_of(line);
    let first = word_at(&words, 0);
    match first.text {
        "set" => wrong_in_set(image, &words),
        "answer" => wrong_in_answer(image, &words),
        "abort" => (
            word_at(&words, 1),
            Why::Slip(ScriptSlip::NothingBehindAbort),
        ),
        text => (first, wrong_in_first(text)),
    }
}

// What is wrong with a line that begins with `set`.
fn wrong_in_set<'a>(image: &Image<'_>, words: &[Word<'a>]) -> (Word<'a>, Why) {
    let (name, value) = (word_at(words, 1), word_at(words, 2));
    if name.text.is_empty() {
        (name, Why::Slip(ScriptSlip::VariableMissing))
    } else if name.text.contains('=') {
        (name, Why::Slip(ScriptSlip::SpaceBetween))
    } else if variable(image, name.text).is_none() {
        (name, Why::NoVariable)
    } else if value.text.is_empty() {
        (value, Why::Slip(ScriptSlip::ValueMissing))
    } else if number(value.text).is_none() {
        (value, Why::NoNumber)
    } else {
        (word_at(words, 3), Why::Slip(ScriptSlip::NothingBehindValue))
    }
}

// What is wrong with a line that begins with `answer`: its code, or the first setting that can't be
// read.
fn wrong_in_answer<'a>(image: &Image<'_>, words: &[Word<'a>]) -> (Word<'a>, Why) {
    let word = word_at(words, 1);
    if code(word.text).is_some() {
        let mut settings = words.iter().skip(2);
        if let Some(found) = settings.find_map(|word| wrong_in_setting(image, *word)) {
            return found;
        }
    }
    if word.text.is_empty() {
        return (word, Why::Slip(ScriptSlip::CodeMissing));
    }
    (word, Why::NoCode)
}

// What is wrong with a setting of an answer, if it is.
fn wrong_in_setting<'a>(image: &Image<'_>, word: Word<'a>) -> Option<(Word<'a>, Why)> {
    if word.text.is_empty() {
        return None;
    }
    let (name, value) = word.text.split_once('=').unwrap_or(("", ""));
    if name.is_empty() || value.is_empty() {
        return Some((word, Why::Slip(ScriptSlip::SettingIsWritten)));
    }
    if variable(image, name).is_none() {
        return Some((Word { text: name, ..word }, Why::NoVariable));
    }
    if number(value).is_some() {
        return None;
    }
    let start = word.start.saturating_add(name.len()).saturating_add(1);
    Some((Word { text: value, start }, Why::NoNumber))
}

// What is wrong with the first word of a line.
fn wrong_in_first(text: &str) -> Why {
    if text.contains('\t') {
        Why::Slip(ScriptSlip::TabIsNoSpace)
    } else if text.starts_with(['#', ';']) || text.starts_with("//") {
        Why::Slip(ScriptSlip::NoComments)
    } else {
        Why::NoBeginning
    }
}
