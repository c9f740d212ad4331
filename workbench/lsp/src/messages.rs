//! The messages of the protocol, which is JSON-RPC.

use crate::answers::{Answer, Diagnostics};
use serde::{Serialize, Serializer};
use serde_json::Value;
use std::borrow::Cow;

/// By what an editor knows the answer to its request.
#[derive(Clone, Debug, PartialEq, Eq, Serialize)]
#[serde(untagged)]
pub enum Id {
    /// A number.
    Number(i64),
    /// A text.
    Text(String),
    /// Of a message that can't be read: `null`.
    Unknown,
}

/// A request, which is answered.
#[derive(Clone, Debug)]
pub struct Request {
    /// By what the editor knows the answer.
    pub id: Id,
    /// What is asked.
    pub method: String,
    /// About what it is asked.
    pub params: Option<Value>,
}

/// A notification, which is not answered.
#[derive(Clone, Debug)]
pub struct Notification {
    /// What is told.
    pub method: String,
    /// About what it is told.
    pub params: Option<Value>,
}

/// What comes from an editor.
#[derive(Clone, Debug)]
pub enum Incoming {
    /// A request.
    Request(Request),
    /// A request that was cancelled before it was begun.
    Cancelled(Id),
    /// A notification.
    Notification(Notification),
    /// The answer to a request of the server, which asks nothing.
    Response,
    /// What can't be read, and why.
    Unreadable(Id, ResponseError),
}

/// Why a request is not answered, as the protocol counts it.
#[derive(Clone, Copy, Debug, PartialEq, Eq)]
pub enum ErrorCode {
    /// The bytes are no JSON.
    ParseError,
    /// The message is no request, or comes at the wrong time.
    InvalidRequest,
    /// The server has no such method.
    MethodNotFound,
    /// The parameters are not those of the method.
    InvalidParams,
    /// The server failed.
    InternalError,
    /// The request comes before `initialize`.
    ServerNotInitialized,
    /// What is asked can't be done.
    RequestFailed,
    /// The editor has cancelled it.
    RequestCancelled,
}

impl ErrorCode {
    /// The number of the protocol.
    pub fn number(self) -> i32 {
        match self {
            ErrorCode::ParseError => -32700,
            ErrorCode::InvalidRequest => -32600,
            ErrorCode::MethodNotFound => -32601,
            ErrorCode::InvalidParams => -32602,
            ErrorCode::InternalError => -32603,
            ErrorCode::ServerNotInitialized => -32002,
            ErrorCode::RequestFailed => -32803,
            ErrorCode::RequestCancelled => -32800,
        }
    }
}

impl Serialize for ErrorCode {
    fn serialize<S: Serializer>(&self, serializer: S) -> Result<S::Ok, S::Error> {
        serializer.serialize_i32(self.number())
    }
}

/// Why a request is not answered.
#[derive(Clone, Debug, PartialEq, Eq, Serialize)]
pub struct ResponseError {
    /// The sort of fault.
    pub code: ErrorCode,
    /// What is wrong, for a reader.
    pub message: Cow<'static, str>,
}

impl ResponseError {
    /// An error with what is wrong.
    pub fn new(code: ErrorCode, message: impl Into<Cow<'static, str>>) -> ResponseError {
        ResponseError {
            code,
            message: message.into(),
        }
    }
}

/// The version of JSON-RPC.
#[derive(Clone, Copy, Debug, Default)]
pub struct Version;

impl Serialize for Version {
    fn serialize<S: Serializer>(&self, serializer: S) -> Result<S::Ok, S::Error> {
        serializer.serialize_str("2.0")
    }
}

/// What is sent to an editor.
#[derive(Clone, Debug, Serialize)]
#[serde(untagged)]
#[expect(missing_docs, reason = "the members are those of JSON-RPC")]
pub enum Outgoing {
    /// The answer to a request.
    Answer {
        jsonrpc: Version,
        id: Id,
        result: Answer,
    },
    /// Why a request is not answered.
    Refusal {
        jsonrpc: Version,
        id: Id,
        error: ResponseError,
    },
    /// What was not asked.
    Notification {
        jsonrpc: Version,
        method: &'static str,
        params: Diagnostics,
    },
}

impl Outgoing {
    /// What becomes of a request.
    pub fn response(id: Id, outcome: Result<Answer, ResponseError>) -> Outgoing {
        let jsonrpc = Version;
        match outcome {
            Ok(result) => Outgoing::Answer {
                jsonrpc,
                id,
                result,
            },
            Err(error) => Outgoing::Refusal { jsonrpc, id, error },
        }
    }

    /// What is wrong with a document.
    pub fn diagnostics(params: Diagnostics) -> Outgoing {
        Outgoing::Notification {
            jsonrpc: Version,
            method: "textDocument/publishDiagnostics",
            params,
        }
    }

    /// The bytes of the message, with its header part.
    ///
    /// # Errors
    ///
    /// A value is none of JSON, which no message has.
    pub fn to_bytes(&self) -> serde_json::Result<Vec<u8>> {
        let content = serde_json::to_string(self)?;
        let length = content.len();
        Ok(format!("Content-Length: {length}\r\n\r\n{content}").into_bytes())
    }
}

impl Incoming {
    /// Reads the content of a message.
    pub fn read(content: &[u8]) -> Incoming {
        let Ok(mut message) = serde_json::from_slice::<Value>(content) else {
            let error = ResponseError::new(ErrorCode::ParseError, "no JSON");
            return Incoming::Unreadable(Id::Unknown, error);
        };
        let id = message.get("id").and_then(id_of);
        let is_wrong_id = id.is_none() && message.get("id").is_some();
        let Some(method) = message.get("method").and_then(Value::as_str) else {
            if message.get("result").is_some() || message.get("error").is_some() {
                return Incoming::Response;
            }
            return no_request(id.unwrap_or(Id::Unknown));
        };
        if is_wrong_id {
            return no_request(Id::Unknown);
        }
        let method = method.to_owned();
        let params = message.get_mut("params").map(Value::take);
        match id {
            Some(id) => Incoming::Request(Request { id, method, params }),
            None => Incoming::Notification(Notification { method, params }),
        }
    }

    /// Whether the editor tells the server to end.
    pub fn is_exit(&self) -> bool {
        matches!(self, Incoming::Notification(told) if told.method == "exit")
    }
}

fn no_request(id: Id) -> Incoming {
    let error = ResponseError::new(ErrorCode::InvalidRequest, "no request");
    Incoming::Unreadable(id, error)
}

/// The identity that a value is.
pub(crate) fn id_of(value: &Value) -> Option<Id> {
    match value.as_i64() {
        Some(number) => Some(Id::Number(number)),
        None => Some(Id::Text(value.as_str()?.to_owned())),
    }
}
