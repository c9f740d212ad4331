//! The server over an input and an output.

use crate::files::Files;
use crate::framing::{Framing, HeaderError};
use crate::messages::{ErrorCode, Id, Incoming, ResponseError};
use crate::server::Ending;
use crate::session::Session;
use std::io::{self, Read, Write};
use std::sync::mpsc::{Receiver, Sender, channel};
use std::thread;
use thiserror::Error;

/// How many bytes are read at once at most.
const PIECE: usize = 65_536;

/// Why a conversation breaks off.
#[derive(Debug, Error)]
pub enum ServeError {
    /// The input can't be read.
    #[error("the input can't be read")]
    Input(#[source] io::Error),
    /// The output can't be written.
    #[error("the output can't be written")]
    Output(#[source] io::Error),
}

/// Answers what comes on an input, up to `exit`; what the editor has not open is read from files. An input that ends before that has not ended well.
///
/// One thread reads while another one answers, so that what waits in the input is known.
///
/// # Errors
///
/// The input can't be read, or the output can't be written.
pub fn serve(
    input: &mut impl Read,
    output: &mut (impl Write + Send),
    files: impl Files + Send + 'static,
) -> Result<Ending, ServeError> {
    let (sender, receiver) = channel();
    thread::scope(|scope| {
        let answering = scope.spawn(move || answer_all(&receiver, output, files));
        let read = read_all(input, sender);
        match answering.join() {
            Ok(answered) => {
                let ending = answered.map_err(ServeError::Output)?;
                read.map_err(ServeError::Input)?;
                Ok(ending.unwrap_or(Ending::Unclean))
            }
            Err(panic) => std::panic::resume_unwind(panic),
        }
    })
}

/// A message by its content, or why none was taken.
impl From<Result<Vec<u8>, HeaderError>> for Incoming {
    fn from(content: Result<Vec<u8>, HeaderError>) -> Incoming {
        match content {
            Ok(content) => Incoming::read(&content),
            Err(error) => {
                let error = ResponseError::new(ErrorCode::ParseError, error.to_string());
                Incoming::Unreadable(Id::Unknown, error)
            }
        }
    }
}

/// Sends the messages of the input on, up to its end, to `exit`, or until nobody takes them.
fn read_all(input: &mut impl Read, messages: Sender<Incoming>) -> io::Result<()> {
    let mut framing = Framing::default();
    let mut piece = vec![0; PIECE];
    loop {
        let count = match input.read(&mut piece) {
            Err(error) if error.kind() == io::ErrorKind::Interrupted => continue,
            count => count?,
        };
        let Some(bytes) = piece.get(..count).filter(|bytes| !bytes.is_empty()) else {
            return Ok(());
        };
        framing.push(bytes);
        while let Some(content) = framing.next_content() {
            let message = Incoming::from(content);
            let is_exit = message.is_exit();
            if messages.send(message).is_err() || is_exit {
                return Ok(());
            }
        }
    }
}

/// Answers messages up to the last one or to `exit`.
fn answer_all(
    messages: &Receiver<Incoming>,
    output: &mut impl Write,
    files: impl Files + 'static,
) -> io::Result<Option<Ending>> {
    let mut session = Session::new(files);
    while session.ending().is_none() {
        for message in messages.try_iter() {
            session.receive(message);
        }
        if let Some(sent) = session.step() {
            for message in sent {
                output.write_all(&message.to_bytes()?)?;
            }
            output.flush()?;
        } else if session.ending().is_none() {
            let Ok(message) = messages.recv() else {
                return Ok(None);
            };
            session.receive(message);
        }
    }
    Ok(session.ending())
}
