//! Steps of a session over plain structs, on an image with one variable.
//!
//! - `start METHOD`, `advance BUDGET`, `turn` and `answer ANSWER` are calls. An answer is a code or `abort`,
//!   and a value for variable 0.
//! - `value NUMBER` sets the variable, and `FIELD NUMBER` a field of the session, as `place 1`.
//! - `state` shows the session.

use super::words::{first_of, number};
use crate::playing::NoAnswer;
use edd_embed::{
    Given, PlainRequest, PlainSession, PlainTurn, Setting, advance_session, answer_session,
    start_session, turn_session,
};
use edd_loader::Image;
use edd_syntax::numbers::MethNo;

/// A session, and the value of the variable.
pub struct Bench {
    session: PlainSession,
    values: [i64; 1],
}

/// A request before the first.
pub const UNASKED: PlainRequest = PlainRequest {
    first: 0,
    second: 0,
    text: 0,
    choices: 0,
    variable: 0,
    tag: 0,
};

impl Default for Bench {
    /// A session that is over, and the value 1.
    fn default() -> Self {
        let session = PlainSession {
            taken: 0,
            place: 0,
            operands: [0; 128],
            slots: [0; 64],
            abort_methods: [0; 8],
            method: 0,
            operand_count: 0,
            abort_count: 0,
            is_aborting: 0,
            turn: PlainTurn {
                request: UNASKED,
                trap: 0,
                turn: 0,
            },
        };
        Bench {
            session,
            values: [1],
        }
    }
}

/// Reads an answer with its one setting.
pub fn given_of(words: &str) -> Result<(Given, Setting), NoAnswer> {
    let (code, value) = first_of(words);
    let aborts = code == "abort";
    let given = Given {
        code: if aborts { 0 } else { number(code)? },
        settings: 1,
        aborts: aborts.into(),
    };
    let setting = Setting {
        value: number(value)?,
        variable: 0,
    };
    Ok((given, setting))
}

impl Bench {
    /// Takes a step, and returns what it answers.
    pub fn step(&mut self, image: &Image<'_>, kind: &str, words: &str) -> Result<String, NoAnswer> {
        let Bench { session, values } = self;
        match kind {
            "start" => {
                let method = MethNo(number(words)?);
                Ok(format!(
                    "{:?}",
                    start_session(image, method, values, session)
                ))
            }
            "advance" => {
                let turn = advance_session(image, session, values, number(words)?);
                Ok(format!("{turn:?}"))
            }
            "turn" => Ok(format!("{:?}", turn_session(session))),
            "answer" => {
                let (given, setting) = given_of(words)?;
                let taken = answer_session(image, session, values, given, &[setting]);
                Ok(format!("{taken:?}"))
            }
            "state" => Ok(self.state()),
            _ => self.set(kind, words),
        }
    }

    fn state(&self) -> String {
        let Bench {
            session,
            values: [value],
        } = self;
        let operands = session.operands.get(..session.operand_count.into());
        let (taken, place) = (session.taken, session.place);
        format!("{taken} taken, at {place}, operands {operands:?}, the value {value}")
    }

    /// Sets the value or a field of the session.
    fn set(&mut self, field: &str, words: &str) -> Result<String, NoAnswer> {
        match field {
            "value" => self.values = [number(words)?],
            "place" => self.session.place = number(words)?,
            "operand_count" => self.session.operand_count = number(words)?,
            "is_aborting" => self.session.is_aborting = number(words)?,
            "method" => self.session.method = number(words)?,
            "tag_of_turn" => self.session.turn.turn = number(words)?,
            _ => return Err(NoAnswer::Row("no such step")),
        }
        Ok("set".to_owned())
    }
}
