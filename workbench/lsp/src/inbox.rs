//! The messages that have come and are not handled yet.

use crate::messages::{Incoming, Notification, id_of};
use std::collections::VecDeque;

/// The messages that wait, in their order.
#[derive(Debug, Default)]
pub(crate) struct Inbox(VecDeque<Incoming>);

impl Inbox {
    /// Adds a message. One that cancels a request that waits takes that request's place.
    pub(crate) fn push(&mut self, message: Incoming) {
        match &message {
            Incoming::Notification(told) if told.method == "$/cancelRequest" => self.cancel(told),
            _ => self.0.push_back(message),
        }
    }

    pub(crate) fn pop(&mut self) -> Option<Incoming> {
        self.0.pop_front()
    }

    fn cancel(&mut self, told: &Notification) {
        let id = told.params.as_ref().and_then(|params| params.get("id"));
        let Some(id) = id.and_then(id_of) else {
            return;
        };
        let is_asked =
            |message: &&mut Incoming| matches!(message, Incoming::Request(it) if it.id == id);
        if let Some(waiting) = self.0.iter_mut().find(is_asked) {
            *waiting = Incoming::Cancelled(id);
        }
    }
}
