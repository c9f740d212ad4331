//! The server as a machine from messages to messages.

use crate::answers::{Answer, Diagnostics};
use crate::client::Client;
use crate::documents::{Documents, Open};
use crate::files::Files;
use crate::messages::{ErrorCode, Incoming, Notification, Outgoing, Request, ResponseError};
use crate::others::{Beside, Others};
use crate::params::Params;
use crate::requests::{Query, answer, workspace_symbols};
use crate::uri::{folder_of, path_of};
use crate::view::View;
use serde_json::Value;
use std::panic::{AssertUnwindSafe, catch_unwind};

/// How far a conversation is.
#[derive(Clone, Copy, Debug, Default, PartialEq, Eq)]
enum Stage {
    /// Before `initialize`.
    #[default]
    Fresh,
    Running,
    /// After `shutdown`.
    ShutDown,
}

/// How a conversation ended.
#[derive(Clone, Copy, Debug, PartialEq, Eq)]
pub enum Ending {
    /// The editor has asked for the shutdown before.
    Clean,
    /// It has not.
    Unclean,
}

/// What the server knows of an editor and its documents.
///
/// ```
/// use edd_lsp::{Incoming, Server};
///
/// let mut server = Server::default();
/// let asked = br#"{"id": 1, "method": "textDocument/hover"}"#;
/// let sent = server.handle(Incoming::read(asked));
/// let [refusal] = sent.as_slice() else { panic!("{sent:?}") };
/// let bytes = refusal.to_bytes()?;
/// assert!(String::from_utf8_lossy(&bytes).contains("the server is not initialized"));
/// # Ok::<(), serde_json::Error>(())
/// ```
#[derive(Debug, Default)]
pub struct Server {
    documents: Documents,
    beside: Beside,
    client: Client,
    stage: Stage,
    ending: Option<Ending>,
}

impl Server {
    /// A server that also reads files. The default one reads none.
    pub fn new(files: impl Files + 'static) -> Server {
        Server {
            beside: Beside::new(Box::new(files)),
            ..Server::default()
        }
    }

    /// Takes a message, and returns what is sent for it. What is wrong with a document that it changes
    /// is told by [`Server::publish`].
    pub fn handle(&mut self, message: Incoming) -> Vec<Outgoing> {
        match message {
            Incoming::Request(request) => vec![self.take_request(request)],
            Incoming::Notification(notification) => {
                let told = guarded(|| self.take_notification(notification));
                told.flatten().into_iter().collect()
            }
            Incoming::Cancelled(id) => {
                let error = ResponseError::new(ErrorCode::RequestCancelled, "cancelled");
                vec![Outgoing::response(id, Err(error))]
            }
            Incoming::Unreadable(id, error) => vec![Outgoing::response(id, Err(error))],
            Incoming::Response => Vec::new(),
        }
    }

    /// Reads and checks a document of which the editor does not know yet what is wrong with it, and
    /// returns what it is told; none where it knows all. An editor that asks for that is told nothing,
    /// but no later request waits until the document is read.
    pub fn publish(&mut self) -> Option<Vec<Outgoing>> {
        let (uri, open) = self.documents.iter_mut().find(|(_, open)| !open.is_told)?;
        open.is_told = true;
        let uri = uri.clone();
        let view = self.view(&uri)?;
        let document = &view.open.document;
        if self.client.pulls {
            guarded(|| document.prepare());
            return Some(Vec::new());
        }
        guarded(|| document.examine());
        let diagnostics = guarded(|| view.diagnostics()).unwrap_or_else(|| none_of(&uri));
        Some(vec![Outgoing::diagnostics(diagnostics)])
    }

    /// How the conversation ended, once the editor has told the server to end.
    pub fn ending(&self) -> Option<Ending> {
        self.ending
    }

    fn take_request(&mut self, request: Request) -> Outgoing {
        let Request { id, method, params } = request;
        let failed = || ResponseError::new(ErrorCode::InternalError, "the server failed");
        let outcome = guarded(|| self.respond(&method, params));
        Outgoing::response(id, outcome.unwrap_or_else(|| Err(failed())))
    }

    fn respond(&mut self, method: &str, params: Option<Value>) -> Result<Answer, ResponseError> {
        let (code, words) = match (self.stage, method) {
            (Stage::Fresh, "initialize") => {
                self.client = Client::of(&params.ok_or_else(no_params)?);
                self.stage = Stage::Running;
                return Ok(Answer::Greeting(Box::new(self.client.greeting())));
            }
            (Stage::Running, "shutdown") => {
                self.stage = Stage::ShutDown;
                return Ok(Answer::Nothing);
            }
            (Stage::Running, "initialize") => (
                ErrorCode::InvalidRequest,
                "the server is initialized already",
            ),
            (Stage::Running, "workspace/symbol") => return Ok(self.workspace_symbols(params)),
            (Stage::Running, _) => {
                if let Some(uri) = params.as_ref().and_then(across(method)) {
                    self.refresh(&uri);
                }
                return answer(method, || self.query(params));
            }
            (Stage::Fresh, _) => (
                ErrorCode::ServerNotInitialized,
                "the server is not initialized",
            ),
            (Stage::ShutDown, _) => (ErrorCode::InvalidRequest, "the server is shut down"),
        };
        Err(ResponseError::new(code, words))
    }

    fn workspace_symbols(&self, params: Option<Value>) -> Answer {
        let params = Params::read(params.unwrap_or_default());
        let views = self.documents.keys().filter_map(|uri| self.view(uri));
        workspace_symbols(views, &params.query)
    }

    /// All files that are known.
    fn others(&self) -> Others<'_> {
        Others {
            documents: &self.documents,
            beside: &self.beside,
            client: self.client,
        }
    }

    /// A document that is open.
    fn view(&self, uri: &str) -> Option<View<'_>> {
        let (uri, open) = self.documents.get_key_value(uri)?;
        Some(View {
            uri,
            open,
            client: self.client,
            others: self.others(),
        })
    }

    /// What is asked about a document.
    fn query(&self, params: Option<Value>) -> Result<Query<'_>, ResponseError> {
        let params = Params::read(params.ok_or_else(no_params)?);
        let bad = |words| ResponseError::new(ErrorCode::InvalidParams, words);
        let Some(uri) = params.uri() else {
            return Err(bad("no document is named"));
        };
        // An item that was found may be in a file that is not open.
        let is_found = params.item.uri.as_deref() == Some(uri);
        let beside = || self.others().view(&path_of(uri)).filter(|_| is_found);
        let Some(view) = self.view(uri).or_else(beside) else {
            return Err(bad("the document is not open"));
        };
        Ok(Query { params, view })
    }

    /// Reads the files beside a document once more, and has tests and scripts that are open checked
    /// anew where that makes a difference.
    fn refresh(&mut self, uri: &str) {
        let beside = &mut self.beside;
        if guarded(|| beside.refresh(uri)) == Some(true) {
            let open = self.documents.values_mut();
            open.filter(|open| !open.document.is_description())
                .for_each(|open| open.is_told = false);
        }
    }

    /// Reads the files beside all documents once more.
    fn refresh_all(&mut self) {
        let open: Vec<String> = self.documents.keys().cloned().collect();
        for uri in open {
            self.refresh(&uri);
        }
    }

    /// Has the tests and scripts checked anew that name items of a description.
    fn recheck_dependents(&mut self, uri: &str) {
        let dependents = guarded(|| {
            let view = self.view(uri)?;
            let path = &view.open.path;
            let is_description = view.open.document.is_description();
            is_description.then(|| owned(&self.others().project().dependents(path)))
        });
        for path in dependents.flatten().unwrap_or_default() {
            let open = self.documents.values_mut().find(|open| open.path == path);
            if let Some(open) = open {
                open.is_told = false;
            }
        }
    }

    /// Forgets a document. What names its items is checked anew, by the file as it is stored.
    fn close(&mut self, uri: &str) -> Option<()> {
        self.documents.get(uri)?;
        self.recheck_dependents(uri);
        self.documents.remove(uri);
        let mut others = self.documents.keys();
        if others.any(|other| folder_of(other) == folder_of(uri)) {
            self.refresh(uri);
        } else {
            self.beside.forget(uri);
        }
        Some(())
    }

    /// Takes a notification. One that is unknown, or whose parameters are not those of its method,
    /// says nothing.
    fn take_notification(&mut self, notification: Notification) -> Option<Outgoing> {
        let Notification { method, params } = notification;
        if method == "exit" {
            self.ending = Some(match self.stage {
                Stage::ShutDown => Ending::Clean,
                Stage::Fresh | Stage::Running => Ending::Unclean,
            });
        }
        if self.stage != Stage::Running {
            return None;
        }
        let params = Params::read(params?);
        if method == "workspace/didChangeWatchedFiles" {
            self.refresh_all();
            return None;
        }
        let told = params.text_document;
        let uri = told.uri?;
        match method.as_str() {
            "textDocument/didOpen" => {
                let open = Open::new(&uri, told.text?, told.version);
                self.documents.insert(uri.clone(), open);
                self.refresh(&uri);
                self.recheck_dependents(&uri);
            }
            "textDocument/didChange" if !params.content_changes.is_empty() => {
                let open = self.documents.get_mut(&uri)?;
                let changes = params.content_changes;
                *open = open.changed(changes, told.version, self.client.encoding);
                self.recheck_dependents(&uri);
            }
            "textDocument/didClose" => {
                self.close(&uri)?;
                return Some(Outgoing::diagnostics(none_of(&uri)));
            }
            _ => {}
        }
        None
    }
}

fn owned(paths: &[&str]) -> Vec<String> {
    paths.iter().map(|path| (*path).to_owned()).collect()
}

/// Where a request of this method is answered from the files beside its document, the document.
fn across(method: &str) -> impl Fn(&Value) -> Option<String> {
    let is_across = matches!(method, "textDocument/references" | "textDocument/rename");
    move |params| {
        let uri = params.pointer("/textDocument/uri")?.as_str()?;
        is_across.then(|| uri.to_owned())
    }
}

fn no_params() -> ResponseError {
    ResponseError::new(ErrorCode::InvalidParams, "parameters are missing")
}

/// That nothing is wrong with a document.
fn none_of(uri: &str) -> Diagnostics {
    Diagnostics {
        uri: uri.to_owned(),
        version: None,
        diagnostics: Vec::new(),
    }
}

/// What a step makes, unless it panics. A step replaces a document as a whole at its end, so that none
/// is lost.
fn guarded<T>(step: impl FnOnce() -> T) -> Option<T> {
    catch_unwind(AssertUnwindSafe(step)).ok()
}

#[cfg(test)]
mod tests {
    use super::*;

    #[test]
    fn a_step_that_panics_makes_nothing() {
        assert_eq!(guarded(|| 1), Some(1));
        assert_eq!(guarded(|| -> u8 { panic!("as a test asks") }), None);
    }
}
