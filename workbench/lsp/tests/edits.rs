//! What a client of its own sees after each of many edits: what is wrong is what `edd check` says, the
//! layout is that of `edd fmt`, fixes can be applied, and what is renamed can be renamed back.

#![allow(
    clippy::arithmetic_side_effects,
    clippy::expect_used,
    clippy::indexing_slicing,
    clippy::panic,
    clippy::string_slice,
    reason = "a test fails by a panic"
)]

mod client;
mod given;

use client::{Client, applied, range_of};
use edd::{Diagnostic, Severity};
use given::number;
use proptest::collection::vec;
use proptest::prelude::*;
use proptest::sample::{Index, select};
use proptest::test_runner::{Config, RngAlgorithm, TestRng, TestRunner};
use serde_json::{Value, json};
use std::cell::Cell;

/// The document that is edited, and one with a fix.
const DOCUMENT: &str = "file:///edited.edd";
const MENDED: &str = "file:///mended.edd";

/// The name that something gets for a while.
const OTHER_NAME: &str = "renamed_for_now";

/// So many edits are made to one text.
const EDITS_OF_TEXT: usize = 20;

/// How many edits are made, where `EDD_EDITS` says nothing.
const EDITS: usize = 1000;

const TEXTS: [&str; 4] = [
    include_str!("../../../examples/first.edd"),
    include_str!("../../../examples/tank.edd"),
    include_str!("../../../examples/pressure_variables.edd"),
    "MANUFACTURER 1, DEVICE_TYPE 2, DEVICE_REVISION 3, DD_REVISION 4\r
/* \u{20ac} \u{1d11e} */ VARIABLE a { LABEL \"|en|A|de|\u{c4}\"; TYPE INTEGER (2) { MIN_VALUE 1; MAX_VALUE b; } }\r
VARIABLE b { CLASS CONTAINED; LABEL \"B\"; HANDLING IF (a == 1) { READ; } ELSE { READ & WRITE; }
    TYPE ENUMERATED { { 1, \"One\" }, { 2, \"Two\" } } } // b
COLLECTION OF VARIABLE c { LABEL \"C\"; MEMBERS { x, a; y, b; } }
MENU m { LABEL \"M\"; ITEMS { c.x (READ_ONLY), a, n } }
METHOD n { LABEL \"N\"; DEFINITION { int i = 1; { int j; j = c.x + i; a = j; }
    if (b != 2) DELAY(i, \"a\"); else { i++; } } }\n",
];

/// What is put in.
const PIECES: [&str; 24] = [
    "{",
    "}",
    "(",
    ")",
    ";",
    ",",
    ".",
    "\"",
    "|de|",
    "\n",
    "\r\n",
    " ",
    "a",
    "b2",
    "==",
    "=",
    "1",
    "VARIABLE ",
    "LABEL",
    "TYPE INTEGER;",
    "/* \u{e4} */",
    "// \u{1d11e}\n",
    "x = 1;",
    "@",
];

/// A random edit: some characters at a place become a piece.
#[derive(Clone, Debug)]
struct Edit {
    place: Index,
    removed: usize,
    piece: &'static str,
    /// Another place of which something is asked.
    asked: Index,
    /// Whether the text is set back behind it, so that most texts are near to one that is right.
    is_undone: bool,
}

fn edit() -> impl Strategy<Value = Edit> {
    let removed = prop_oneof![Just(0_usize), 0..4_usize, 0..40_usize];
    let piece = prop_oneof![Just(""), select(&PIECES[..])];
    let parts = (any::<Index>(), removed, piece, any::<Index>(), 0..6_u8);
    parts.prop_map(|(place, removed, piece, asked, undone)| Edit {
        place,
        removed,
        piece,
        asked,
        is_undone: undone != 0,
    })
}

/// The place of a character, or the end of the text.
fn byte_at(text: &str, place: Index) -> usize {
    let count = text.chars().count();
    let chosen = text.char_indices().nth(place.index(count + 1));
    chosen.map_or(text.len(), |(byte, _)| byte)
}

/// How much was tried.
#[derive(Debug, Default)]
struct Tried {
    edits: Cell<usize>,
    fixes: Cell<usize>,
    renamed: Cell<usize>,
    laid_out: Cell<usize>,
    typed: Cell<usize>,
    accepted: Cell<usize>,
}

fn count(cell: &Cell<usize>) {
    cell.set(cell.get() + 1);
}

/// What the library says of a text, as the protocol has it.
fn expected(text: &str) -> Value {
    let report = edd::check(text.as_bytes());
    let shown = report.diagnostics.iter();
    let mut all: Vec<_> = shown.map(|found| diagnostic(text, found)).collect();
    if report.more > 0 {
        let message = format!("{} more are not shown", report.more);
        let range = range_of(text, 0, 0);
        all.push(json!({"range": range, "severity": 3, "source": "edd", "message": message}));
    }
    Value::Array(all)
}

fn diagnostic(text: &str, found: &Diagnostic) -> Value {
    let place = found.range.clone().unwrap_or(0..0);
    let words = match found.number {
        // An editor shows the number apart.
        Some(number) => found.message[format!("{number} ").len()..].to_owned(),
        None => found.message.clone(),
    };
    let hints = found.hints.iter().map(|hint| format!("\nhelp: {hint}"));
    let message: String = [words].into_iter().chain(hints).collect();
    let mut made = json!({
        "range": range_of(text, place.start, place.end),
        "severity": if found.severity == Severity::Refused { 1 } else { 2 },
        "code": found.number.map_or(json!(found.name), |number| json!(number)),
        "source": "edd",
        "message": message,
    });
    let related = found.related.iter().map(|it| {
        let range = range_of(text, it.range.start, it.range.end);
        json!({"location": {"uri": DOCUMENT, "range": range}, "message": it.message})
    });
    let related: Vec<_> = related.collect();
    if !related.is_empty() {
        made["relatedInformation"] = Value::Array(related);
    }
    made
}

/// What was told of a document under its name, as if it were the one that is edited.
fn as_of_document(told: Value) -> Value {
    let text = told.to_string().replace(MENDED, DOCUMENT);
    serde_json::from_str(&text).expect("JSON")
}

/// A client with the text that is edited.
struct Editing<'t> {
    client: Client,
    text: String,
    tokens: Vec<Value>,
    tokens_name: Value,
    tried: &'t Tried,
}

impl Editing<'_> {
    fn begin<'t>(text: &str, tried: &'t Tried) -> Editing<'t> {
        let mut client = Client::begin();
        assert_eq!(client.open(DOCUMENT, text), expected(text));
        Editing {
            client,
            text: text.to_owned(),
            tokens: Vec::new(),
            tokens_name: json!("none"),
            tried,
        }
    }

    /// Changes the text by a change of the protocol.
    fn change(&mut self, change: Value, text: String) {
        let told = self.client.change(DOCUMENT, json!([change]));
        assert_eq!(told, expected(&text), "{text:?}");
        self.text = text;
    }

    fn replace_all(&mut self, text: String) {
        self.change(json!({"text": text}), text.clone());
    }

    fn edit(&mut self, edit: &Edit) {
        let start = byte_at(&self.text, edit.place);
        let removed = self.text[start..].chars().take(edit.removed);
        let end = start + removed.map(char::len_utf8).sum::<usize>();
        let range = range_of(&self.text, start, end);
        let text = [&self.text[..start], edit.piece, &self.text[end..]].concat();
        // Places within CR LF are none of the protocol.
        let is_apart = |byte: usize| {
            !self.text[byte..].starts_with('\n') || {
                let before = &self.text[..byte];
                !before.ends_with('\r')
            }
        };
        if is_apart(start) && is_apart(end) {
            self.change(json!({"range": range, "text": edit.piece}), text);
        } else {
            self.replace_all(text);
        }
        count(&self.tried.edits);
    }

    fn try_layout(&mut self) {
        let options = json!({"options": {"tabSize": 4, "insertSpaces": true}});
        let edits = self.client.ask_about(DOCUMENT, "formatting", options);
        let made = applied(&self.text, &edits.expect("edits"));
        match edd::format(self.text.as_bytes()) {
            Ok(wanted) => {
                assert_eq!(made.as_bytes(), wanted);
                count(&self.tried.laid_out);
            }
            Err(_) => assert_eq!(made, self.text),
        }
    }

    /// Applies each fix to a document of its own, of which is told what is wrong then.
    fn try_fixes(&mut self) {
        let range = range_of(&self.text, 0, self.text.len());
        let context = json!({"diagnostics": [], "only": ["quickfix", "source.fixAll"]});
        let asked = json!({"range": range, "context": context});
        let actions = self.client.ask_about(DOCUMENT, "codeAction", asked);
        for action in actions.expect("actions").as_array().expect("a list") {
            let text = applied(&self.text, &action["edit"]["changes"][DOCUMENT]);
            assert_ne!(text, self.text);
            let told = self.client.open(MENDED, &text);
            assert_eq!(as_of_document(told), expected(&text), "{action}");
            self.client.close(MENDED);
            count(&self.tried.fixes);
        }
    }

    /// The name at a place that can have another one, and the text with that.
    fn renamed(&mut self, byte: usize, name: &str) -> Option<(String, String)> {
        let at = range_of(&self.text, byte, byte)["start"].take();
        let asked = json!({"position": at.clone()});
        let prepared = self.client.ask_about(DOCUMENT, "prepareRename", asked);
        let old = prepared.expect("an answer")["placeholder"]
            .as_str()?
            .to_owned();
        let asked = json!({"position": at, "newName": name});
        let edit = self.client.ask_about(DOCUMENT, "rename", asked);
        let edit = match edit {
            Ok(edit) => edit,
            // The name is declared twice, so that one of both can't have it again.
            Err(code) => {
                assert_eq!(code, -32803);
                return None;
            }
        };
        let edits = &edit["changes"][DOCUMENT];
        Some((old, applied(&self.text, edits)))
    }

    /// Asks for the layout behind a sign, which has to be a step to that of the whole text.
    fn try_typed(&mut self, asked: Index) {
        let byte = byte_at(&self.text, asked);
        let Some(sign) = self.text[byte..].find([';', '}', '\n']) else {
            return;
        };
        let end = byte + sign + 1;
        let at = range_of(&self.text, end, end)["start"].take();
        let asked = json!({"position": at, "ch": self.text[end - 1..end]});
        let edits = self.client.ask_about(DOCUMENT, "onTypeFormatting", asked);
        let edits = edits.expect("edits");
        let made = applied(&self.text, &edits);
        assert!(made.ends_with(&self.text[end..]));
        let [made, was] = [&made, &self.text].map(|text| edd::format(text.as_bytes()));
        assert_eq!(made, was);
        if edits != json!([]) {
            count(&self.tried.typed);
        }
    }

    fn try_rename(&mut self, asked: Index) {
        let before = self.text.clone();
        let byte = byte_at(&before, asked);
        // Most names have small letters.
        let name = before[byte..].find(|it: char| it.is_ascii_lowercase());
        let byte = byte + name.unwrap_or(0);
        let Some((old, text)) = self.renamed(byte, OTHER_NAME) else {
            return;
        };
        self.replace_all(text);
        let place = self.text.find(OTHER_NAME).expect("the name");
        if let Some((other, text)) = self.renamed(place, &old) {
            assert_eq!(other, OTHER_NAME);
            assert_eq!(text, before);
            count(&self.tried.renamed);
        }
        self.replace_all(before);
    }

    /// Asks for the colours as changes of those before, which have to come to all colours.
    fn try_tokens(&mut self) {
        let asked = json!({"previousResultId": self.tokens_name});
        let changed = self
            .client
            .ask_about(DOCUMENT, "semanticTokens/full/delta", asked);
        let changed = changed.expect("colours");
        match &changed["edits"] {
            Value::Array(edits) => {
                for edit in edits {
                    let [start, removed] = ["start", "deleteCount"]
                        .map(|name| edit[name].as_u64().expect("a number"))
                        .map(|number| usize::try_from(number).expect("a small number"));
                    let data = edit["data"].as_array().expect("numbers").clone();
                    self.tokens.splice(start..start + removed, data);
                }
            }
            _ => self.tokens = changed["data"].as_array().expect("numbers").clone(),
        }
        let all = self
            .client
            .ask_about(DOCUMENT, "semanticTokens/full", json!({}));
        let all = all.expect("colours");
        assert_eq!(all["data"], Value::Array(self.tokens.clone()));
        self.tokens_name = all["resultId"].clone();
    }

    fn try_all(&mut self, asked: Index) {
        if !edd::check(self.text.as_bytes()).is_refused {
            count(&self.tried.accepted);
        }
        self.try_layout();
        self.try_typed(asked);
        self.try_tokens();
        self.try_fixes();
        self.try_rename(asked);
    }
}

/// 1,000 edits, or as many as `EDD_EDITS` says. They are the same at each run, unless `EDD_SEED`, a
/// number, makes other ones.
#[test]
fn after_each_edit_the_server_says_what_the_library_says() {
    let seed = number("EDD_SEED").unwrap_or(0);
    let edits = number("EDD_EDITS").map_or(EDITS, |edits| usize::try_from(edits).expect("a count"));
    let config = Config {
        cases: u32::try_from(edits.div_ceil(EDITS_OF_TEXT)).expect("a count"),
        failure_persistence: None,
        ..Config::default()
    };
    let random = TestRng::from_seed(RngAlgorithm::ChaCha, &seed.to_le_bytes().repeat(4));
    let texts = (select(&TEXTS[..]), vec(edit(), EDITS_OF_TEXT));
    let tried = Tried::default();
    let ran = TestRunner::new_with_rng(config, random).run(&texts, |(text, edits)| {
        let mut editing = Editing::begin(text, &tried);
        for edit in edits {
            let before = editing.text.clone();
            editing.edit(&edit);
            editing.try_all(edit.asked);
            if edit.is_undone {
                editing.replace_all(before);
            }
        }
        Ok(())
    });
    if let Err(failure) = ran {
        panic!("{failure}, with EDD_SEED={seed}");
    }
    println!("{tried:?}");
    let counts = [
        &tried.accepted,
        &tried.fixes,
        &tried.laid_out,
        &tried.renamed,
        &tried.typed,
    ];
    assert!(
        counts.iter().all(|cell| cell.get() * 10 > edits),
        "too little of something: {tried:?}"
    );
}
