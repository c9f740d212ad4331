//! A client of its own: it keeps texts, counts places and applies edits without the server's code.

use edd_lsp::{Framing, Incoming, Session};
use serde_json::{Value, json};
use std::collections::VecDeque;

/// A place in a text, as the protocol counts it: its line, and the UTF-16 units before it there.
#[derive(Clone, Copy, Debug, PartialEq, Eq)]
pub(crate) struct Place {
    line: u64,
    units: u64,
}

impl Place {
    fn read(value: &Value) -> Place {
        let member = |name: &str| value[name].as_u64().expect("a number");
        Place {
            line: member("line"),
            units: member("character"),
        }
    }

    fn to_json(self) -> Value {
        json!({"line": self.line, "character": self.units})
    }

    /// The place of a byte.
    fn of(text: &str, byte: usize) -> Place {
        let found = places(text).find(|(at, _)| *at == byte);
        found.unwrap_or_else(|| panic!("no character at {byte}")).1
    }

    /// The byte of a place, which has to be one of the text.
    fn byte(self, text: &str) -> usize {
        let found = places(text).find(|(_, place)| *place == self);
        found.unwrap_or_else(|| panic!("no place {self:?}")).0
    }
}

/// The bytes of all characters of a text and its end with their places, counted one by one. What ends a
/// line has the place of the line's end, also a LF behind its CR.
fn places(text: &str) -> impl Iterator<Item = (usize, Place)> {
    let mut next = Place { line: 0, units: 0 };
    let mut characters = text.chars().peekable();
    let bytes = text.char_indices().map(|(byte, _)| byte);
    bytes.chain([text.len()]).map(move |byte| {
        let place = next;
        let character = characters.next();
        let is_first = character == Some('\r') && characters.peek() == Some(&'\n');
        match character {
            Some('\n' | '\r') if !is_first => {
                next.line += 1;
                next.units = 0;
            }
            Some(character) if !is_first => {
                next.units += u64::try_from(character.len_utf16()).expect("a small number");
            }
            _ => {}
        }
        (byte, place)
    })
}

/// The range of some bytes.
pub(crate) fn range_of(text: &str, start: usize, end: usize) -> Value {
    let [start, end] = [start, end].map(|byte| Place::of(text, byte).to_json());
    json!({"start": start, "end": end})
}

/// A text with the edits of a message, each of which has to lie in it and apart from the others.
pub(crate) fn applied(text: &str, edits: &Value) -> String {
    let mut placed: Vec<_> = edits.as_array().expect("edits").iter().collect();
    placed.sort_by_key(|edit| Place::read(&edit["range"]["start"]).byte(text));
    let (mut made, mut end) = (String::new(), 0);
    for edit in placed {
        let [from, to] = ["start", "end"].map(|name| Place::read(&edit["range"][name]).byte(text));
        assert!(end <= from && from <= to, "edits that meet: {edits}");
        made.push_str(&text[end..from]);
        made.push_str(edit["newText"].as_str().expect("a text"));
        end = to;
    }
    made.push_str(&text[end..]);
    made
}

/// An editor that speaks bytes with the server.
pub(crate) struct Client {
    session: Session,
    framing: Framing,
    received: VecDeque<Value>,
    number: u64,
    version: u64,
}

impl Client {
    /// A client that has greeted the server.
    pub(crate) fn begin() -> Client {
        let mut client = Client {
            session: Session::default(),
            framing: Framing::default(),
            received: VecDeque::new(),
            number: 0,
            version: 0,
        };
        let text_document = json!({
            "publishDiagnostics": {"relatedInformation": true},
            "rename": {"prepareSupport": true},
            "codeAction": {"codeActionLiteralSupport": {}},
        });
        let capabilities = json!({"textDocument": text_document});
        client
            .ask("initialize", json!({"capabilities": capabilities}))
            .expect("a greeting");
        client.tell("initialized", json!({}));
        client
    }

    fn send(&mut self, message: &Value) {
        let content = message.to_string();
        let framed = format!("Content-Length: {}\r\n\r\n{content}", content.len());
        self.framing.push(framed.as_bytes());
        while let Some(content) = self.framing.next_content() {
            self.session.receive(Incoming::from(content));
        }
        while let Some(sent) = self.session.step() {
            for message in sent {
                let bytes = message.to_bytes().expect("JSON");
                let start = bytes.iter().position(|byte| *byte == b'{').expect("JSON");
                let read = serde_json::from_slice(&bytes[start..]).expect("JSON");
                self.received.push_back(read);
            }
        }
    }

    pub(crate) fn tell(&mut self, method: &str, params: Value) {
        self.send(&json!({"jsonrpc": "2.0", "method": method, "params": params}));
    }

    /// Asks, and returns the result, or the code of the error.
    pub(crate) fn ask(&mut self, method: &str, params: Value) -> Result<Value, i64> {
        self.number += 1;
        let id = self.number;
        self.send(&json!({"jsonrpc": "2.0", "id": id, "method": method, "params": params}));
        let mut answer = self.received.pop_front().expect("an answer");
        assert_eq!(answer["id"], id, "{answer}");
        match answer["error"]["code"].as_i64() {
            Some(code) => Err(code),
            None => Ok(answer["result"].take()),
        }
    }

    /// Asks about a document.
    pub(crate) fn ask_about(
        &mut self,
        document: &str,
        method: &str,
        mut more: Value,
    ) -> Result<Value, i64> {
        more["textDocument"] = json!({"uri": document});
        self.ask(&format!("textDocument/{method}"), more)
    }

    /// What is told to be wrong with a document that was opened or changed.
    fn told(&mut self, document: &str) -> Value {
        let mut told = self.received.pop_front().expect("what is wrong");
        assert_eq!(told["method"], "textDocument/publishDiagnostics");
        assert_eq!(told["params"]["uri"], document);
        assert_eq!(told["params"]["version"], self.version);
        assert!(self.received.is_empty(), "{:?}", self.received);
        told["params"]["diagnostics"].take()
    }

    /// Opens a document, and returns what is wrong with it.
    pub(crate) fn open(&mut self, document: &str, text: &str) -> Value {
        self.version += 1;
        let opened = json!({"uri": document, "version": self.version, "text": text});
        self.tell("textDocument/didOpen", json!({"textDocument": opened}));
        self.told(document)
    }

    /// Changes a document, and returns what is wrong with it then.
    pub(crate) fn change(&mut self, document: &str, changes: Value) -> Value {
        self.version += 1;
        let named = json!({"uri": document, "version": self.version});
        let params = json!({"textDocument": named, "contentChanges": changes});
        self.tell("textDocument/didChange", params);
        self.told(document)
    }

    pub(crate) fn close(&mut self, document: &str) {
        let params = json!({"textDocument": {"uri": document}});
        self.tell("textDocument/didClose", params);
        let told = self.received.pop_front().expect("that nothing is wrong");
        assert_eq!(told["params"]["diagnostics"], json!([]));
    }
}
