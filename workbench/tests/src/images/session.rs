//! Steps of a session, by calls and by hosts.

use super::hosts::{Device, Script};
use super::words::{answers_of, around_colon, first_of, number, values_of};
use crate::playing::NoAnswer;
use edd_loader::Image;
use edd_port::{Host, Session, Turn, drive};
use edd_syntax::numbers::{MethNo, VarNo};
use std::fmt::Display;

/// The last session and hosts.
#[derive(Default)]
pub struct Bench<'i, 'b> {
    session: Option<Session<'i, 'b>>,
    script: Script,
    device: Device,
}

impl<'i, 'b> Bench<'i, 'b> {
    /// Starts a session under unchecked values: `start METHOD NUMBERS`.
    pub fn start(&mut self, image: &'i Image<'b>, words: &str) -> Result<String, NoAnswer> {
        let (method, numbers) = first_of(words);
        match Session::start(image, MethNo(number(method)?), values_of(numbers)?) {
            Ok(session) => {
                self.session = Some(session);
                Ok("started".to_owned())
            }
            Err((fault, values)) => Ok(format!("{fault:?} {:?}", values.numbers)),
        }
    }

    /// Takes a step that needs a session, and returns its answer.
    pub fn step(&mut self, kind: &str, words: &str) -> Result<String, NoAnswer> {
        let session = self
            .session
            .as_mut()
            .ok_or(NoAnswer::Row("no session was started"))?;
        match kind {
            "advance" => Ok(turned(session.advance(number(words)?), session)),
            "turn" => Ok(turned(session.turn(), session)),
            "value" => Ok(format!("{:?}", session.values().get(VarNo(number(words)?)))),
            "answer" => answered(session, words),
            "script" => {
                self.script = Script::new(answers_of(words)?);
                Ok("made".to_owned())
            }
            "device" => {
                self.device = Device::new(number(words)?);
                Ok("made".to_owned())
            }
            "drive_script" => driven(session, &mut self.script, words),
            "drive_device" => driven(session, &mut self.device, words),
            "singly" => singly(session, words),
            _ => Err(NoAnswer::Row("no such step")),
        }
    }
}

/// Writes a turn, and how many instructions were taken until then.
fn turned(turn: Turn, session: &Session<'_, '_>) -> String {
    format!("{turn:?} after {}", session.taken())
}

/// Gives answers one after the other, and returns their faults.
fn answered(session: &mut Session<'_, '_>, words: &str) -> Result<String, NoAnswer> {
    let answers = answers_of(words)?;
    let faults: Vec<_> = answers
        .iter()
        .map(|answer| session.answer(answer).err())
        .collect();
    Ok(format!("{faults:?}"))
}

/// Drives a session by a host, and returns how that ended and what the host noted.
fn driven(
    session: &mut Session<'_, '_>,
    host: &mut (impl Host + Display),
    steps: &str,
) -> Result<String, NoAnswer> {
    let end = drive(session, host, number(steps)?);
    Ok(format!("{end:?}, {host}"))
}

/// Executes so many instructions, one by each call, and answers requests: `singly COUNT : ANSWERS`.
fn singly(session: &mut Session<'_, '_>, words: &str) -> Result<String, NoAnswer> {
    let (count, answers) = around_colon(words);
    let mut answers = answers_of(answers)?.into_iter();
    let mut requests = Vec::new();
    for step in 1..=number(count)? {
        let turn = session.advance(1);
        if session.taken() != step {
            return Ok("over too early".to_owned());
        }
        if let Turn::Asks(request) = turn {
            requests.push(request);
            // A refused answer leaves the request pending, as the next turn shows.
            let _refused = answers.next().map(|answer| session.answer(&answer));
        }
    }
    // A run that waits or is over executes nothing more.
    let turn = session.advance(1);
    Ok(format!("{requests:?} {}", turned(turn, session)))
}
