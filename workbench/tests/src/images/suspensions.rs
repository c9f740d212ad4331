//! Suspends and resumes sessions of method 0 of an image with one variable.
//!
//! - `resumed`: each place, and with how many operands the suspended session is resumed there, as `5/1`.
//!   Behind ` while it asks` the session waits for an answer.
//! - `cut`: the variable, the instructions and the status of a run that is suspended before each instruction.
//! - `changed`: whether the session is resumed as another method, with other slots, with a value out of its
//!   range, and unchanged.

use super::sessions::started;
use super::small::image_of;
use crate::playing::NoAnswer;
use edd_instructions::{Request, Status};
use edd_loader::{Image, load};
use edd_machine::Operands;
use edd_plain_std::alloc::Global;
use edd_port::{Session, Suspended};
use edd_syntax::numbers::VarNo;

/// Suspends method 0 at its start, with this value of the variable, and asks.
fn asked_of(
    image: &str,
    value: i64,
    ask: impl FnOnce(&Image<'_>, Suspended) -> String,
) -> Result<String, NoAnswer> {
    let bytes = image_of(image)?;
    match load(Global, &bytes) {
        Ok(image) => Ok(ask(&image, started(&image, value)?.suspend())),
        Err(fault) => Ok(fault.to_string()),
    }
}

/// Returns what is suspended again, and whether it was resumed.
fn tried(image: &Image<'_>, suspended: Suspended) -> (Suspended, bool) {
    match Session::resume(image, suspended) {
        Ok(session) => (session.suspend(), true),
        Err(given) => (given, false),
    }
}

/// Lists the places where a session is resumed, each with the number of operands.
fn places(image: &Image<'_>, mut suspended: Suspended) -> String {
    let mut found = Vec::new();
    for place in 0..60 {
        suspended.machine.operands = Operands::new();
        suspended.machine.place = place;
        for count in 0..4 {
            let (given, is_resumed) = tried(image, suspended);
            suspended = given;
            if is_resumed {
                found.push(format!("{place}/{count}"));
            }
            suspended.machine.operands.push(0);
        }
    }
    found.join(" ")
}

pub fn resumed(text: &str) -> Result<String, NoAnswer> {
    let asking = text.strip_suffix(" while it asks");
    asked_of(asking.unwrap_or(text), 5, |image, mut suspended| {
        if asking.is_some() {
            suspended.machine.status = Status::Asking(Request::SaveValues);
        }
        places(image, suspended)
    })
}

/// Returns what is suspended after 20 more instructions, if it is resumed before each of them.
fn run_on(image: &Image<'_>, suspended: Suspended) -> Option<Suspended> {
    (0..20).try_fold(suspended, |suspended, _| {
        let mut session = Session::resume(image, suspended).ok()?;
        session.advance(1);
        Some(session.suspend())
    })
}

pub fn cut(text: &str) -> Result<String, NoAnswer> {
    asked_of(text, 0, |image, suspended| match run_on(image, suspended) {
        Some(end) => {
            let x = end.values.get(VarNo(0));
            format!("{x:?} {} {:?}", end.taken, end.machine.status)
        }
        None => "not resumed".to_owned(),
    })
}

fn set_first(suspended: &mut Suspended, value: i64) {
    if let Some(number) = suspended.values.numbers.first_mut() {
        *number = value;
    }
}

/// Returns whether it is resumed with each change alone, and as it was.
fn with_changes(image: &Image<'_>, mut suspended: Suspended) -> [bool; 4] {
    suspended.machine.unit.item = 1;
    let (mut suspended, other_method) = tried(image, suspended);
    suspended.machine.unit.item = 0;
    suspended.machine.unit.slots = 1;
    let (mut suspended, other_slots) = tried(image, suspended);
    suspended.machine.unit.slots = 0;
    set_first(&mut suspended, 128);
    let (mut suspended, out_of_range) = tried(image, suspended);
    set_first(&mut suspended, 127);
    let (_, as_it_was) = tried(image, suspended);
    [other_method, other_slots, out_of_range, as_it_was]
}

pub fn changed(text: &str) -> Result<String, NoAnswer> {
    asked_of(text, 5, |image, suspended| {
        format!("{:?}", with_changes(image, suspended))
    })
}
