//! A conversation: what has come and is not handled yet, and the server.

use crate::files::Files;
use crate::inbox::Inbox;
use crate::messages::{Incoming, Outgoing};
use crate::server::{Ending, Server};

/// A conversation with an editor.
///
/// Documents are checked when no message waits, so that changes that come together are checked once,
/// and a request behind them does not wait for that.
#[derive(Debug, Default)]
pub struct Session {
    inbox: Inbox,
    server: Server,
}

impl Session {
    /// A conversation that also reads files. The default one reads none.
    pub fn new(files: impl Files + 'static) -> Session {
        Session {
            inbox: Inbox::default(),
            server: Server::new(files),
        }
    }

    /// Takes a message that has come. It is handled by a later [`Session::step`].
    pub fn receive(&mut self, message: Incoming) {
        self.inbox.push(message);
    }

    /// Handles the next message, or checks a document where none waits, and returns what is sent for
    /// it; none where nothing is left to be done.
    pub fn step(&mut self) -> Option<Vec<Outgoing>> {
        if self.ending().is_some() {
            return None;
        }
        match self.inbox.pop() {
            Some(message) => Some(self.server.handle(message)),
            None => self.server.publish(),
        }
    }

    /// How the conversation ended, once the editor has told the server to end.
    pub fn ending(&self) -> Option<Ending> {
        self.server.ending()
    }
}
