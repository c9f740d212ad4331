//! What holds of each conversation, whatever an editor sends.

#![allow(
    clippy::arithmetic_side_effects,
    clippy::expect_used,
    clippy::indexing_slicing,
    clippy::panic,
    reason = "a test fails by a panic"
)]

use edd_lsp::{ErrorCode, Incoming, Outgoing, Session};
use proptest::collection::vec;
use proptest::prelude::*;
use proptest::sample::select;
use proptest::test_runner::{Config, RngAlgorithm, TestRng, TestRunner};
use serde_json::{Value, json};

const METHODS: &[&str] = &[
    "didOpen",
    "didChange",
    "didChange",
    "didChange",
    "didClose",
    "hover",
    "definition",
    "references",
    "documentHighlight",
    "prepareRename",
    "rename",
    "documentSymbol",
    "foldingRange",
    "completion",
    "signatureHelp",
    "formatting",
    "codeAction",
    "onTypeFormatting",
    "semanticTokens/full",
    "semanticTokens/full/delta",
    "selectionRange",
    "inlayHint",
    "codeLens",
    "prepareCallHierarchy",
    "callHierarchy/incomingCalls",
    "callHierarchy/outgoingCalls",
];

const URIS: [&str; 4] = [
    "file:///a/b.edd",
    "file:///a/b.device.edd",
    "file:///a/b.test",
    "file:///a/b.script",
];

const TEXTS: [&str; 7] = [
    "MANUFACTURER 1, DEVICE_TYPE 2, DEVICE_REVISION 3, DD_REVISION 4\nVARIABLE p { TYPE INTEGER; }",
    "METHOD m {\r\n DEFINITION { int k; k = 1; } } // \u{1d11e}\u{e4}\r VARIABLE k { LABEL \"|en|\"; }",
    "\"",
    "",
    "}\n{",
    "VARIABLE ",
    "source b.edd\r\ndevice b.device.edd\ntest \u{e4}\nmethod p\n set p 1\nanswer 0 p=2 k=\n= value p 1\n",
];

/// A message, some of whose members may be of another form.
fn message() -> impl Strategy<Value = Value> {
    let place = (0..4_u64, 0..40_u64);
    let parts = (
        select(METHODS),
        place.clone(),
        place,
        select(&TEXTS[..]),
        (0..40_usize, select(&URIS[..])),
    );
    parts.prop_map(|(method, start, end, text, (damage, uri))| {
        let at = |(line, character): (u64, u64)| json!({"line": line, "character": character});
        let range = json!({"start": at(start), "end": at(end)});
        let typed = ["}", ";", "\n"][damage % 3];
        let mut params = json!({
            "textDocument": {"uri": uri, "version": 1, "text": text},
            "position": at(start), "range": range, "positions": [at(start), at(end)],
            "contentChanges": [{"range": range, "text": text}], "newName": "n",
            "ch": typed, "previousResultId": "1",
            "context": {"includeDeclaration": true, "only": ["source.fixAll", "quickfix"]},
            "item": {"uri": uri, "selectionRange": range},
        });
        let members = [
            "textDocument",
            "position",
            "range",
            "positions",
            "contentChanges",
        ];
        let strange = [
            Value::Null,
            json!(-1),
            json!([]),
            json!({}),
            json!("x"),
            json!([{}]),
        ];
        if let (Some(member), Some(value)) = (members.get(damage), strange.get(damage)) {
            params[*member] = value.clone();
        }
        let method = if method.contains("Hierarchy/") {
            method.to_owned()
        } else {
            format!("textDocument/{method}")
        };
        json!({"method": method, "params": params})
    })
}

#[test]
fn each_request_has_one_answer_and_none_fails() {
    let config = Config {
        failure_persistence: None,
        ..Config::default()
    };
    let random = TestRng::from_seed(RngAlgorithm::ChaCha, &[9; 32]);
    let ran = TestRunner::new_with_rng(config, random).run(&vec(message(), 1..30), |messages| {
        converse(messages);
        Ok(())
    });
    if let Err(failure) = ran {
        panic!("{failure}");
    }
}

fn converse(messages: Vec<Value>) {
    let mut session = Session::default();
    let mut send = |message: Value| {
        session.receive(Incoming::read(message.to_string().as_bytes()));
        std::iter::from_fn(|| session.step())
            .flatten()
            .collect::<Vec<_>>()
    };
    let capabilities = json!({"textDocument": {"codeAction": {"codeActionLiteralSupport": {}}}});
    let params = json!({"capabilities": capabilities});
    send(json!({"id": 0, "method": "initialize", "params": params}));
    for mut message in messages {
        let is_request = !message["method"]
            .as_str()
            .expect("a method")
            .contains("/did");
        if is_request {
            message["id"] = json!(7);
        }
        let answers = send(message.clone());
        let answers = answers.iter().filter(|sent| match sent {
            Outgoing::Refusal { error, .. } => {
                assert_ne!(error.code, ErrorCode::InternalError, "{message}");
                true
            }
            Outgoing::Answer { .. } => true,
            Outgoing::Notification { .. } => false,
        });
        assert_eq!(answers.count(), usize::from(is_request), "{message}");
    }
}
