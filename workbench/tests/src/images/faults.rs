//! Prints errors.
//!
//! - `faults`: all errors of a call on images, as they print.

use crate::playing::NoAnswer;
use edd_loader::LoadFault;
use edd_machine::{ReadFault, SetFault, ValuesFault};
use edd_port::{AnswerFault, PlayFault, StartFault};
use std::fmt::Display;

const LOAD_FAULTS: [LoadFault; 12] = [
    LoadFault::Short,
    LoadFault::Magic,
    LoadFault::Version,
    LoadFault::Length,
    LoadFault::Row,
    LoadFault::Name,
    LoadFault::Text,
    LoadFault::Instruction,
    LoadFault::Jump,
    LoadFault::Depth,
    LoadFault::Reference,
    LoadFault::Memory,
];

const VALUES_FAULTS: [ValuesFault; 3] =
    [ValuesFault::Count, ValuesFault::Range, ValuesFault::Memory];

const READ_FAULTS: [ReadFault; 7] = [
    ReadFault::NoItem,
    ReadFault::WrongValues,
    ReadFault::DivZero,
    ReadFault::DivOverflow,
    ReadFault::BadShift,
    ReadFault::NoElement,
    ReadFault::Memory,
];

const SET_FAULTS: [SetFault; 2] = [SetFault::BadVariable, SetFault::OutOfRange];

const START_FAULTS: [StartFault; 2] = [StartFault::NoItem, StartFault::WrongValues];

const ANSWER_FAULTS: [AnswerFault; 3] = [
    AnswerFault::NotAsking,
    AnswerFault::BadVariable,
    AnswerFault::OutOfRange,
];

const PLAY_FAULTS: [PlayFault; 5] = [
    PlayFault::NoItem,
    PlayFault::WrongValues,
    PlayFault::BadVariable,
    PlayFault::OutOfRange,
    PlayFault::Memory,
];

/// Lists the faults, one after the other.
fn listed<T: Display>(faults: &[T]) -> String {
    let faults: Vec<_> = faults.iter().map(T::to_string).collect();
    faults.join(", ")
}

pub fn printed(call: &str) -> Result<String, NoAnswer> {
    match call {
        "load" => Ok(listed(&LOAD_FAULTS)),
        "values" => Ok(listed(&VALUES_FAULTS)),
        "read" => Ok(listed(&READ_FAULTS)),
        "set" => Ok(listed(&SET_FAULTS)),
        "start" => Ok(listed(&START_FAULTS)),
        "answer" => Ok(listed(&ANSWER_FAULTS)),
        "play" => Ok(listed(&PLAY_FAULTS)),
        _ => Err(NoAnswer::Row("no such call")),
    }
}
