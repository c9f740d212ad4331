//! A conversation with the language server: what is sent, and what the server has to answer.
//!
//! - `> MESSAGE` sends a message.
//! - `& MESSAGE` sends it together with the next one.
//! - `- BYTES` sends bytes as they are, with the escapes of `unescaped`.
//! - `% PATH TEXT` stores a file that the server may read, with the escapes of `unescaped`.
//! - `< MESSAGE` is the next message that the server sends.
//! - `= goes on`, `= clean` or `= unclean` is whether the conversation is over, and how.
//!
//! A message of the server that no line names is a failure.

use crate::playing::NoAnswer;
use crate::table::{Part, unescaped};
use edd_lsp::{Ending, Files, Framing, Outgoing, Session, Stored};
use std::cell::RefCell;
use std::collections::{BTreeMap, VecDeque};
use std::rc::Rc;

/// The parameters of `initialize` of an editor that supports everything the server asks about.
const ABLE: &str = concat!(
    r#"{"capabilities":{"general":{"positionEncodings":["utf-16","utf-8"]},"textDocument":{"#,
    r#""publishDiagnostics":{"relatedInformation":true},"rename":{"prepareSupport":true},"#,
    r#""documentSymbol":{"hierarchicalDocumentSymbolSupport":true},"#,
    r#""codeAction":{"codeActionLiteralSupport":{}},"signatureHelp":{"signatureInformation":"#,
    r#"{"parameterInformation":{"labelOffsetSupport":true}}}}}}"#
);

/// Those of an editor that supports nothing, with columns in UTF-16.
const PLAIN: &str = r#"{"capabilities":{}}"#;

/// Files that are stored, by their paths.
#[derive(Clone, Debug, Default)]
struct InMemory(Rc<RefCell<BTreeMap<String, String>>>);

impl Files for InMemory {
    fn read_beside(&self, path: &str) -> Vec<Stored> {
        let folder = path.rfind('/').and_then(|end| path.get(..=end));
        let files = self.0.borrow();
        let files = files.iter().filter_map(|(path, text)| {
            Some(Stored {
                path: path.strip_prefix(folder?)?.to_owned(),
                text: text.clone(),
            })
        });
        files.collect()
    }
}

/// A conversation so far.
struct Conversation {
    session: Session,
    files: InMemory,
    framing: Framing,
    /// What is sent together with the next message.
    held: Vec<u8>,
    /// The messages of the server that no line has named so far.
    untold: VecDeque<String>,
    /// What is wrong so far.
    wrong: Vec<String>,
}

/// The content of a message that the server sent.
fn content(message: &Outgoing) -> String {
    let bytes = message.to_bytes().unwrap_or_default();
    let mut framing = Framing::default();
    framing.push(&bytes);
    match framing.next_content() {
        Some(Ok(content)) => String::from_utf8_lossy(&content).into(),
        Some(Err(error)) => error.to_string(),
        None => "no message".to_owned(),
    }
}

impl Conversation {
    /// Begins a conversation of this kind.
    fn begin(word: &str) -> Result<Self, NoAnswer> {
        let files = InMemory::default();
        let mut conversation = Conversation {
            session: Session::new(files.clone()),
            files,
            framing: Framing::default(),
            held: Vec::new(),
            untold: VecDeque::new(),
            wrong: Vec::new(),
        };
        let params = match word {
            "utf-8" => ABLE,
            "utf-16" => PLAIN,
            "-" => return Ok(conversation),
            _ => return Err(NoAnswer::Kind),
        };
        conversation.send(&format!(
            r#"{{"jsonrpc":"2.0","id":0,"method":"initialize","params":{params}}}"#
        ));
        conversation.untold.clear();
        Ok(conversation)
    }

    fn hold(&mut self, message: &str) {
        let length = message.len();
        let framed = format!("Content-Length: {length}\r\n\r\n{message}");
        self.held.extend(framed.into_bytes());
    }

    fn send(&mut self, message: &str) {
        self.hold(message);
        let bytes = std::mem::take(&mut self.held);
        self.send_bytes(&bytes);
    }

    /// Sends bytes. Messages that no line has named by then are wrong.
    fn send_bytes(&mut self, bytes: &[u8]) {
        self.note_untold();
        self.framing.push(bytes);
        while let Some(content) = self.framing.next_content() {
            self.session.receive(content.into());
        }
        while let Some(sent) = self.session.step() {
            self.untold.extend(sent.iter().map(content));
        }
    }

    fn note_untold(&mut self) {
        let untold = self.untold.drain(..);
        self.wrong
            .extend(untold.map(|message| format!("  not told {message}")));
    }

    /// Compares the next message of the server.
    fn compare(&mut self, message: &str) {
        let came = self
            .untold
            .pop_front()
            .unwrap_or_else(|| "nothing".to_owned());
        if came != message {
            self.wrong
                .push(format!("  wanted {message}\n  came   {came}"));
        }
    }

    /// Compares whether the conversation is over, and how.
    fn compare_next(&mut self, word: &str) {
        let came = match self.session.ending() {
            None => "goes on",
            Some(Ending::Clean) => "clean",
            Some(Ending::Unclean) => "unclean",
        };
        if came != word {
            self.wrong.push(format!("  wanted {word}\n  ends   {came}"));
        }
    }

    /// Stores a file.
    fn store(&self, line: &str) -> Option<()> {
        let (path, text) = line.split_once(' ')?;
        let text = String::from_utf8(unescaped(text)?).ok()?;
        self.files.0.borrow_mut().insert(path.to_owned(), text);
        Some(())
    }

    /// Takes a line of the part.
    fn take(&mut self, line: &str) -> Result<(), NoAnswer> {
        let (sign, rest) = line.split_once(' ').unwrap_or((line, ""));
        match sign {
            ">" => self.send(rest),
            "&" => self.hold(rest),
            "<" => self.compare(rest),
            "-" => {
                let bytes = unescaped(rest).ok_or(NoAnswer::Row("an escape without its end"))?;
                self.send_bytes(&bytes);
            }
            "=" => self.compare_next(rest),
            "%" => {
                let stored = self.store(rest);
                stored.ok_or(NoAnswer::Row("no file, or an escape without its end"))?;
            }
            "#" => {}
            _ => return Err(NoAnswer::Row("a line that is none of a conversation")),
        }
        Ok(())
    }
}

/// Plays the conversation of a part, and returns what is wrong with it.
pub fn wrong_in(part: &Part<'_>) -> Result<Option<String>, NoAnswer> {
    let mut conversation = Conversation::begin(part.kind)?;
    for (number, line) in part.numbered_lines() {
        let before = conversation.wrong.len();
        conversation.take(line)?;
        if conversation.wrong.len() > before {
            conversation.wrong.push(format!("  at line {number}"));
        }
    }
    conversation.note_untold();
    let wrong = conversation.wrong.join("\n");
    Ok(Some(wrong).filter(|wrong| !wrong.is_empty()))
}

#[cfg(test)]
mod tests {
    use super::*;

    fn wrong(kind: &str, lines: &str) -> Result<Option<String>, NoAnswer> {
        wrong_in(&Part {
            kind,
            name: "",
            lines,
            line: 1,
        })
    }

    const ASK: &str = r#"> {"jsonrpc":"2.0","id":1,"method":"shutdown"}"#;

    const ANSWER: &str = r#"< {"jsonrpc":"2.0","id":1,"result":null}"#;

    #[test]
    fn what_is_told_is_right() {
        let lines = format!(
            "{ASK}\n{ANSWER}\n= goes on\n> {{\"jsonrpc\":\"2.0\",\"method\":\"exit\"}}\n= clean"
        );
        assert_eq!(wrong("utf-8", &lines), Ok(None));
        assert_eq!(wrong("utf-16", &lines), Ok(None));
    }

    #[test]
    fn what_is_not_told_is_wrong() {
        let wrong = wrong("utf-8", ASK).unwrap().unwrap();
        assert_eq!(wrong, format!("  not told {}", &ANSWER[2..]));
    }

    #[test]
    fn what_differs_is_wrong() {
        let lines = format!("{ASK}\n< {{}}\n= clean");
        let wrong = wrong("utf-8", &lines).unwrap().unwrap();
        let answer = &ANSWER[2..];
        assert_eq!(
            wrong,
            format!(
                "  wanted {{}}\n  came   {answer}\n  at line 3\n  wanted clean\n  ends   goes on\n  at line 4"
            )
        );
        assert!(
            super::wrong_in(&Part {
                kind: "-",
                name: "",
                lines: "< {}",
                line: 1
            })
            .unwrap()
            .is_some()
        );
    }

    #[test]
    fn other_lines_are_refused() {
        assert!(wrong("utf-8", "+ a").is_err());
        assert!(wrong("utf-8", "- \\x0").is_err());
        assert_eq!(wrong("utf-32", ""), Err(NoAnswer::Kind));
    }
}
