//! Runs of a method that are advanced and answered.

use crate::{Answer, AnswerFault, Image, StartFault, Values};
use edd_machine::Machine;
use edd_port::{Suspended, Turn, turn_of};
use edd_syntax::numbers::MethNo;
use std::fmt;
use std::mem;

/// A run of a method, at any point of it. It owns all that it needs, and may move to another
/// thread.
///
/// Whoever holds it decides how far it goes: [`Session::advance`] executes a budget of
/// instructions, and in which budgets a run is cut makes no difference to it. Each call that goes
/// on looks once at the code of the method's body, to see that the run still fits it. So a budget
/// of a thousand instructions is better than one of ten.
///
/// ```
/// use edd::{Answer, ItemNo, Request, Session, Turn};
///
/// let image = edd::compile(
///     b"MANUFACTURER 1, DEVICE_TYPE 2, DEVICE_REVISION 3, DD_REVISION 4
///       VARIABLE p { TYPE INTEGER (2); }
///       METHOD ask { DEFINITION { p = send_command(1) + 1; } }",
/// )?;
/// let Some(ItemNo::Method(ask)) = image.find("ask") else { panic!("a method") };
/// let mut session = Session::start(&image, ask, image.values()).map_err(|(fault, _)| fault)?;
/// assert_eq!(session.advance(1000), Turn::Asks(Request::SendCommand(1)));
/// session.answer(&Answer::code(41))?;
/// assert_eq!(session.advance(1000), Turn::Ended);
/// assert_eq!(session.values().numbers(), [42]);
/// # Ok::<(), Box<dyn std::error::Error>>(())
/// ```
pub struct Session {
    image: Image,
    // With the values a state of the method's body in the image.
    machine: Machine,
    values: Values,
    taken: u64,
}

impl Session {
    /// The run of a method at its start. After a refusal the values are handed back.
    ///
    /// # Errors
    ///
    /// The values are those of another image, there is no such method, or it has no body.
    pub fn start(
        image: &Image,
        method: MethNo,
        values: Values,
    ) -> Result<Session, (StartFault, Values)> {
        if !values.are_of(image) {
            return Err((StartFault::WrongValues, values));
        }
        let opened = image.reopen();
        match edd_port::Session::start(&opened, method, values.into_core()) {
            Ok(started) => {
                let Suspended {
                    machine,
                    values,
                    taken,
                } = started.suspend();
                Ok(Session {
                    image: image.clone(),
                    machine,
                    values: Values::from_core(image, values),
                    taken,
                })
            }
            Err((fault, values)) => Err((
                StartFault::from_core(fault),
                Values::from_core(image, values),
            )),
        }
    }

    /// Executes at most so many instructions, and returns where the method is then. A session that
    /// asks or is over executes none.
    pub fn advance(&mut self, budget: u32) -> Turn {
        self.resume(|session| session.advance(budget))
    }

    /// Answers the pending request. The method goes on by the next [`Session::advance`].
    ///
    /// # Errors
    ///
    /// No request is pending, or the answer sets what cannot be set. Then nothing changes.
    pub fn answer(&mut self, answer: &Answer) -> Result<(), AnswerFault> {
        let answer = answer.to_core();
        self.resume(|session| session.answer(&answer))
            .map_err(AnswerFault::from_core)
    }

    /// Where the method is: [`Turn::Spent`] while it runs.
    pub fn turn(&self) -> Turn {
        turn_of(self.machine.status)
    }

    /// The values as the method left them.
    pub fn values(&self) -> &Values {
        &self.values
    }

    /// How many instructions were executed.
    pub fn taken(&self) -> u64 {
        self.taken
    }

    /// The image whose method it is.
    pub fn image(&self) -> &Image {
        &self.image
    }

    /// The values, without the session.
    pub fn into_values(self) -> Values {
        self.values
    }

    /// Lends the core's session, over the image that is opened again.
    pub(crate) fn resume<T>(&mut self, act: impl FnOnce(&mut edd_port::Session<'_, '_>) -> T) -> T {
        let image = self.image.clone();
        let opened = image.reopen();
        let mut resumed = Resumed::new(self, &opened);
        resumed.session.as_mut().map_or_else(cannot_resume, act)
    }

    // What it is apart from its image, until `put_back`.
    fn suspended(&mut self) -> Suspended {
        let start = Machine::open(self.machine.unit);
        Suspended {
            machine: mem::replace(&mut self.machine, start),
            values: self.values.take_core(),
            taken: self.taken,
        }
    }

    fn put_back(&mut self, suspended: Suspended) {
        self.machine = suspended.machine;
        self.values.put_core(suspended.values);
        self.taken = suspended.taken;
    }
}

// A session of the core that goes back to its owner, also where a host panics.
struct Resumed<'s, 'i, 'b> {
    owner: &'s mut Session,
    session: Option<edd_port::Session<'i, 'b>>,
}

impl<'s, 'i, 'b> Resumed<'s, 'i, 'b> {
    fn new(owner: &'s mut Session, image: &'i edd_loader::Image<'b>) -> Resumed<'s, 'i, 'b> {
        let suspended = owner.suspended();
        let session = match edd_port::Session::resume(image, suspended) {
            Ok(session) => Some(session),
            Err(suspended) => {
                owner.put_back(suspended);
                None
            }
        };
        Resumed { owner, session }
    }
}

impl Drop for Resumed<'_, '_, '_> {
    fn drop(&mut self) {
        if let Some(session) = self.session.take() {
            self.owner.put_back(session.suspend());
        }
    }
}

// What a session is comes from the core alone, which is proved to resume it over its image: the law
// is `methods_may_be_suspended` of `edd_port`.
#[expect(
    clippy::unreachable,
    reason = "going on without the method would be wrong without a word"
)]
fn cannot_resume<T>() -> T {
    unreachable!("the core resumes what it has suspended")
}

impl fmt::Debug for Session {
    fn fmt(&self, f: &mut fmt::Formatter<'_>) -> fmt::Result {
        f.debug_struct("Session")
            .field("turn", &self.turn())
            .field("values", &self.values)
            .field("taken", &self.taken)
            .finish_non_exhaustive()
    }
}
