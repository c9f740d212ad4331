//! What an editor waits for.

#![allow(
    clippy::arithmetic_side_effects,
    clippy::expect_used,
    clippy::panic,
    reason = "a test fails by a panic"
)]

use edd_lsp::{Incoming, Outgoing, Session};
use serde_json::{Value, json};
use std::fmt::Write;
use std::time::{Duration, Instant};

const HEAD: &str = "MANUFACTURER 1, DEVICE_TYPE 2, DEVICE_REVISION 3, DD_REVISION 4\n";

const DESCRIPTION: &str = "file:///t/b.edd";

/// How many bytes the text has with a blank put in: the most that a description may have. In debug
/// builds fewer, as these are some ten times slower.
const LENGTH: usize = if cfg!(debug_assertions) {
    200_000
} else {
    1_048_576
};

/// The bytes of a group of items.
const GROUP: usize = 5_650;

/// The variables of a group.
const VARIABLES: usize = 20;

/// A variable in a line of its own.
fn variable(number: usize) -> String {
    format!(
        "VARIABLE v{number} {{ LABEL \"|en|Channel {number}|de|Kanal {number}\"; HELP \"|en|What channel {number} measured last|de|Der letzte Wert von Kanal {number}\"; HANDLING READ & WRITE; TYPE INTEGER (2) {{ MIN_VALUE 0; MAX_VALUE 100; }} }}\n"
    )
}

/// A method that reads four variables and sets the last of them.
fn method(number: usize, first: usize) -> String {
    let [second, third, last] = [1, 2, 3].map(|more| first + more);
    format!(
        "METHOD m{number} {{
    LABEL \"|en|Adjust {number}|de|Abgleich {number}\";
    DEFINITION {{
        int i;
        int sum;
        sum = 0;
        // Each turn counts.
        for (i = 0; i < 5; i++) {{
            if (v{first} > i * 10) {{
                sum = sum + v{second};
            }} else {{
                sum = sum - 1;
            }}
        }}
        if (sum > 50 && v{third} < 90) {{
            v{last} = sum / 5;
        }}
    }}
}}
"
    )
}

/// A menu of these items.
fn menu(name: &str, items: impl Iterator<Item = String>) -> String {
    let items: Vec<_> = items.collect();
    let items = items.join(", ");
    format!(
        "MENU {name} {{\n    LABEL \"|en|Menu {name}|de|Menü {name}\";\n    ITEMS {{ {items} }}\n}}\n"
    )
}

/// A description of some thousand variables, each in a line of its own, with methods and menus behind
/// them, and how many variables it has. It has no warning.
fn description() -> (String, usize) {
    let groups = LENGTH / GROUP;
    let count = groups * VARIABLES;
    let mut text = HEAD.to_owned();
    text.extend((0..count).map(variable));
    for group in 0..groups {
        let first = group * VARIABLES;
        let methods = group * 3..group * 3 + 3;
        text.extend(
            methods
                .clone()
                .map(|number| method(number, first + number % 3 * 4)),
        );
        let shown = (first..first + VARIABLES).map(|number| format!("v{number}"));
        let entries = shown.chain(methods.map(|number| format!("m{number}")));
        text.push_str(&menu(&format!("n{group}"), entries));
    }
    text.push_str(&menu("all", (0..groups).map(|group| format!("n{group}"))));
    let rest = LENGTH - 1 - text.len();
    writeln!(text, "/* {} */", "-".repeat(rest - 7)).expect("a text");
    (text, count)
}

fn send(session: &mut Session, message: &Value) {
    session.receive(Incoming::read(message.to_string().as_bytes()));
}

/// Does all that is left to be done, and returns how long that took.
fn drain(session: &mut Session) -> Duration {
    let begun = Instant::now();
    while session.step().is_some() {}
    begun.elapsed()
}

/// How long the answer to a hover takes.
fn hover(session: &mut Session, line: usize) -> Duration {
    let place =
        json!({"textDocument": {"uri": DESCRIPTION}, "position": {"line": line, "character": 10}});
    send(
        session,
        &json!({"id": 1, "method": "textDocument/hover", "params": place}),
    );
    let begun = Instant::now();
    let sent = session.step().expect("an answer");
    let took = begun.elapsed();
    let [Outgoing::Answer { result, .. }] = sent.as_slice() else {
        panic!("{sent:?}");
    };
    assert!(
        serde_json::to_string(result)
            .expect("JSON")
            .contains("VARIABLE v")
    );
    took
}

fn open(session: &mut Session, uri: &str, text: &str) {
    let document = json!({"uri": uri, "version": 1, "text": text});
    send(
        session,
        &json!({"method": "textDocument/didOpen", "params": {"textDocument": document}}),
    );
    drain(session);
}

/// A conversation with the description open.
fn opened(capabilities: &Value) -> (Session, usize) {
    let mut session = Session::default();
    let params = json!({"capabilities": capabilities});
    send(
        &mut session,
        &json!({"id": 0, "method": "initialize", "params": params}),
    );
    let (text, last) = description();
    assert_eq!(text.len(), LENGTH - 1);
    let checked = edd::check(text.as_bytes());
    assert_eq!(checked.diagnostics, [], "a text in which nothing is wrong");
    open(&mut session, DESCRIPTION, &text);
    (session, last)
}

/// Of five changes with a hover behind each the least times: of reading and checking, and of the hover.
fn least_times((mut session, last): (Session, usize)) -> (Duration, Duration) {
    let mut least = (Duration::MAX, Duration::MAX);
    for version in 2..7 {
        // A blank behind VARIABLE, which is taken away again.
        let (behind, text) = if version % 2 == 0 { (8, " ") } else { (9, "") };
        let [start, end] = [8, behind].map(|column| json!({"line": last / 2, "character": column}));
        let change = json!({"range": {"start": start, "end": end}, "text": text});
        let params = json!({
            "textDocument": {"uri": DESCRIPTION, "version": version}, "contentChanges": [change],
        });
        send(
            &mut session,
            &json!({"method": "textDocument/didChange", "params": params}),
        );
        least.0 = drain(&mut session).min(least.0);
        least.1 = hover(&mut session, last / 2 + version).min(least.1);
    }
    least
}

/// A hover behind a change reads nothing once more: it takes a small part of the time in which the
/// text was read, on whatever machine.
#[test]
fn the_first_hover_behind_a_change_takes_no_time() {
    for capabilities in [json!({}), json!({"textDocument": {"diagnostic": {}}})] {
        let (read, hovered) = least_times(opened(&capabilities));
        println!("{LENGTH} bytes: read in {read:?}, a hover in {hovered:?}");
        assert!(hovered < read / 10, "{hovered:?} of {read:?}");
    }
}

/// A change of a description has its tests checked anew. That compiles it once, however many tests
/// there are.
#[test]
fn tests_are_checked_in_the_time_of_their_description() {
    let alone = least_times(opened(&json!({}))).0;
    let (mut session, last) = opened(&json!({}));
    let mut tests = "source b.edd\n".to_owned();
    for number in 0..1000 {
        let variable = number % last;
        write!(
            tests,
            "test {number}\nshow\nset v{variable} 1\n~ variable v{variable} INTEGER 2\n"
        )
        .expect("a text");
    }
    open(&mut session, "file:///t/b.test", &tests);
    let script = tests.lines().filter(|line| line.starts_with("set"));
    let script: Vec<_> = script.collect();
    open(&mut session, "file:///t/b.script", &script.join("\n"));
    let all = least_times((session, last)).0;
    println!("{LENGTH} bytes: {alone:?} alone, {all:?} with tests");
    assert!(all < alone * 6, "{all:?} where it is {alone:?} alone");
}
