//! Hosts, which answer the requests of methods.

use crate::{Answer, AnswerFault, Session};
use edd_instructions::Request;
use edd_port::{Reply, Turn};
use edd_syntax::answer::Answer as CoreAnswer;

/// Who answers the requests of a method: a user, a device or a script.
///
/// ```
/// use edd::{Answer, Drive, Host, ItemNo, Request, Session, Turn, drive};
/// use std::convert::Infallible;
///
/// /// Answers each command with its number times 7.
/// struct Sevens;
///
/// impl Host for Sevens {
///     type Error = Infallible;
///
///     fn reply(&mut self, request: &Request) -> Result<Option<Answer>, Infallible> {
///         Ok(match request {
///             Request::SendCommand(number) => Some(Answer::code(number * 7)),
///             _ => None,
///         })
///     }
/// }
///
/// let image = edd::compile(
///     b"MANUFACTURER 1, DEVICE_TYPE 2, DEVICE_REVISION 3, DD_REVISION 4
///       VARIABLE x { TYPE INTEGER (2); }
///       METHOD sum { DEFINITION { int i; for (i = 2; i > 0; i--) { x += send_command(i); } } }",
/// )?;
/// let Some(ItemNo::Method(sum)) = image.find("sum") else { panic!("a method") };
/// let mut session = Session::start(&image, sum, image.values()).map_err(|(fault, _)| fault)?;
/// assert_eq!(drive(&mut session, &mut Sevens, 1000), Drive::Done(Turn::Ended));
/// assert_eq!(session.values().numbers(), [21]);
/// # Ok::<(), Box<dyn std::error::Error>>(())
/// ```
pub trait Host {
    /// Why it fails. [`std::convert::Infallible`] is the error of a host that never does.
    type Error;

    /// The answer to a request, or none where there is none yet.
    ///
    /// # Errors
    ///
    /// The host fails. The request stays pending.
    fn reply(&mut self, request: &Request) -> Result<Option<Answer>, Self::Error>;
}

/// Where [`drive`] stops.
#[derive(Clone, Copy, Debug, PartialEq, Eq)]
pub enum Drive<E> {
    /// The method is over, or all instructions were executed ([`Turn::Spent`]).
    Done(Turn),
    /// The host had no answer. The request is still pending.
    Waiting,
    /// The host's answer was refused. The request is still pending, and nothing was set.
    Refused(AnswerFault),
    /// The host failed. The request is still pending.
    Failed(E),
}

/// Runs a method for at most so many instructions. A host answers each request, also one that is
/// pending already.
pub fn drive<H: Host>(session: &mut Session, host: &mut H, steps: u64) -> Drive<H::Error> {
    let mut book = Book::new(host);
    let end = session.resume(|session| edd_port::drive(session, &mut book, steps));
    match (end, book.error) {
        (edd_port::Drive::Done(turn), _) => Drive::Done(turn),
        (edd_port::Drive::Refused(fault), _) => Drive::Refused(AnswerFault::from_core(fault)),
        (edd_port::Drive::HostFailed, Some(error)) => Drive::Failed(error),
        (edd_port::Drive::Waiting | edd_port::Drive::HostFailed, _) => Drive::Waiting,
    }
}

/// A host with the book that the core requires: each request that was answered with its answer, how
/// often the host had nothing, and how often it failed. A full count stays.
struct Book<'h, H: Host> {
    host: &'h mut H,
    given: Vec<(Request, CoreAnswer)>,
    nothing: u64,
    failed: u64,
    error: Option<H::Error>,
}

impl<'h, H: Host> Book<'h, H> {
    fn new(host: &'h mut H) -> Book<'h, H> {
        Book {
            host,
            given: Vec::new(),
            nothing: 0,
            failed: 0,
            error: None,
        }
    }
}

impl<H: Host> edd_port::Host for Book<'_, H> {
    fn reply(&mut self, request: &Request) -> Reply {
        match self.host.reply(request) {
            Ok(Some(answer)) => {
                self.given.push((*request, answer.to_core()));
                Reply::Give
            }
            Ok(None) => {
                self.nothing = self.nothing.saturating_add(1);
                Reply::Nothing
            }
            Err(error) => {
                self.failed = self.failed.saturating_add(1);
                self.error = Some(error);
                Reply::Failed
            }
        }
    }

    fn given(&self) -> &CoreAnswer {
        // The core asks for it after `Give` alone.
        const NONE: &CoreAnswer = &CoreAnswer::Abort;
        self.given.last().map_or(NONE, |(_, answer)| answer)
    }
}

#[cfg(test)]
mod tests {
    use super::*;
    use edd_port::Host as _;

    /// Has nothing first, fails then, and answers with 3.
    struct Late(u32);

    impl Host for Late {
        type Error = u32;

        fn reply(&mut self, _: &Request) -> Result<Option<Answer>, u32> {
            self.0 = self.0.saturating_add(1);
            match self.0 {
                1 => Ok(None),
                2 => Err(2),
                _ => Ok(Some(Answer::code(3))),
            }
        }
    }

    #[test]
    fn a_book_has_what_the_host_did() {
        let mut host = Late(0);
        let mut book = Book::new(&mut host);
        assert_eq!(book.reply(&Request::SaveValues), Reply::Nothing);
        assert_eq!((book.given.len(), book.nothing, book.failed), (0, 1, 0));
        assert_eq!(book.reply(&Request::SaveValues), Reply::Failed);
        assert_eq!((book.given.len(), book.nothing, book.failed), (0, 1, 1));
        assert_eq!(book.reply(&Request::SendCommand(9)), Reply::Give);
        assert_eq!((book.given.len(), book.nothing, book.failed), (1, 1, 1));
        assert_eq!(book.given[0].0, Request::SendCommand(9));
        assert!(matches!(book.given(), CoreAnswer::Go { code: 3, .. }));
    }
}
