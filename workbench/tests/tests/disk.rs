//! What the language server reads from a disk, and what it says of the examples.

#![allow(
    clippy::arithmetic_side_effects,
    clippy::disallowed_methods,
    clippy::indexing_slicing,
    clippy::panic,
    clippy::unwrap_used,
    reason = "a test fails by a panic"
)]

use edd_lsp::{Disk, Files, Incoming, Outgoing, Session, Stored};
use edd_testing::{FileFault, Lines, Request, Summary, run_tests};
use edd_tests::folder::TempFolder;
use serde_json::{Value, json};
use std::collections::BTreeMap;
use std::fs;
use std::os::unix::fs::symlink;
use std::path::{Path, PathBuf};
use std::process::Command;

/// A name that no example has.
const NEW_NAME: &str = "quite_another_name";

fn read_beside(path: &Path) -> Vec<String> {
    let stored = Disk.read_beside(path.to_str().unwrap());
    stored.into_iter().map(|file| file.path).collect()
}

#[test]
fn descriptions_tests_and_scripts_below_a_folder_are_read() {
    let temp = TempFolder::new().unwrap();
    let folder = temp.path();
    for inner in ["x/y/z", ".git"] {
        fs::create_dir_all(folder.join(inner)).unwrap();
    }
    for name in [
        "b.edd",
        "a.device.edd",
        "a.edd",
        "a.b.script",
        "x/a.test",
        "x/y/c.test",
    ] {
        fs::write(folder.join(name), name).unwrap();
    }
    for name in ["x/y/z/d.test", ".git/e.edd", "notes.txt", "Makefile"] {
        fs::write(folder.join(name), name).unwrap();
    }
    fs::write(folder.join("long.edd"), " ".repeat(1_048_577)).unwrap();
    fs::write(folder.join("just.edd"), " ".repeat(1_048_576)).unwrap();
    fs::write(folder.join("bytes.edd"), b"\xff").unwrap();
    symlink(folder.join("b.edd"), folder.join("link.edd")).unwrap();
    symlink(folder, folder.join("x/back")).unwrap();
    // Nobody writes into it, so the test would not end if it were read.
    let made = Command::new("mkfifo").arg(folder.join("pipe.edd")).status();
    assert!(made.unwrap().success());
    let wanted = [
        "a.b.script",
        "a.device.edd",
        "a.edd",
        "x/a.test",
        "b.edd",
        "just.edd",
        "x/y/c.test",
    ];
    assert_eq!(read_beside(&folder.join("a.edd")), wanted);
    let first = Disk
        .read_beside(folder.join("a.edd").to_str().unwrap())
        .swap_remove(0);
    let text = "a.b.script".to_owned();
    assert_eq!(
        first,
        Stored {
            path: text.clone(),
            text
        }
    );
    assert!(read_beside(&folder.join("none/a.edd")).is_empty());
    assert!(Disk.read_beside("").is_empty());
    // The whole system is below the root folder.
    assert!(Disk.read_beside("/a.edd").is_empty());
}

#[test]
fn no_more_than_4096_entries_are_looked_at() {
    let temp = TempFolder::new().unwrap();
    for number in 0..4096 {
        fs::write(temp.path().join(format!("{number}.txt")), "").unwrap();
    }
    fs::create_dir(temp.path().join("x")).unwrap();
    fs::write(temp.path().join("x/a.test"), "").unwrap();
    // The folder `x` is found among the first entries or it is not, but nothing of it is looked at.
    assert!(read_beside(&temp.path().join("a.edd")).is_empty());
}

#[test]
fn no_more_than_64_files_are_read() {
    let temp = TempFolder::new().unwrap();
    for number in 0..100 {
        fs::write(temp.path().join(format!("b{number:02}.edd")), "").unwrap();
    }
    fs::write(temp.path().join("z.test"), "").unwrap();
    let read = read_beside(&temp.path().join("z.edd"));
    assert_eq!(read.len(), 64);
    assert_eq!(read[..2], ["z.test", "b00.edd"]);
}

fn send(session: &mut Session, message: &Value) -> Vec<Value> {
    session.receive(Incoming::read(message.to_string().as_bytes()));
    let sent = std::iter::from_fn(|| session.step()).flatten();
    let sent = sent.map(|message: Outgoing| serde_json::to_value(&message).unwrap());
    sent.collect()
}

fn greeted() -> Session {
    let mut session = Session::new(Disk);
    let params = json!({"capabilities": {"general": {"positionEncodings": ["utf-8"]}}});
    send(
        &mut session,
        &json!({"id": 0, "method": "initialize", "params": params}),
    );
    session
}

fn open(session: &mut Session, path: &Path) -> Vec<Value> {
    let uri = format!("file://{}", path.display());
    let text = fs::read_to_string(path).unwrap();
    let document = json!({"uri": uri, "version": 1, "text": text});
    send(
        session,
        &json!({"method": "textDocument/didOpen", "params": {"textDocument": document}}),
    )
}

/// The files of the examples whose names end so.
fn examples(end: &str) -> Vec<PathBuf> {
    let folder = Path::new(env!("CARGO_MANIFEST_DIR")).join("../../examples");
    let folder = folder.canonicalize().unwrap();
    let entries = [folder.clone(), folder.join("tests")].map(|it| fs::read_dir(it).unwrap());
    let paths = entries
        .into_iter()
        .flatten()
        .map(|entry| entry.unwrap().path());
    let mut paths: Vec<_> = paths
        .filter(|path| path.to_str().unwrap().ends_with(end))
        .collect();
    paths.sort();
    paths
}

#[test]
fn nothing_is_wrong_with_the_tests_and_scripts_of_the_examples() {
    let (tests, scripts) = (examples(".test"), examples(".script"));
    assert!(tests.len() > 5 && scripts.len() > 20);
    // A test is in a folder below its description, which is read with the description.
    let mut session = greeted();
    open(&mut session, &examples("tank.edd")[0]);
    for path in tests.iter().chain(&scripts) {
        let told = open(&mut session, path);
        assert_eq!(told.len(), 1, "{told:?}");
        let found = &told[0]["params"]["diagnostics"];
        assert_eq!(found, &json!([]), "{}", path.display());
    }
}

/// The edits that give the item at a line of a description another name.
fn renamed(session: &mut Session, path: &Path, line: usize, character: usize) -> Value {
    let params = json!({
        "textDocument": {"uri": format!("file://{}", path.display())},
        "position": {"line": line, "character": character},
        "newName": NEW_NAME,
    });
    let rename = json!({"id": 1, "method": "textDocument/rename", "params": params});
    let sent = send(session, &rename);
    sent[0]["result"]["changes"].clone()
}

/// A text with edits, which come one behind the other.
fn edited(text: &str, edits: &Value) -> String {
    let mut lines: Vec<String> = text.split('\n').map(str::to_owned).collect();
    for edit in edits.as_array().unwrap().iter().rev() {
        let at = |end: &str, part: &str| {
            let place = edit["range"][end][part].as_u64().unwrap();
            usize::try_from(place).unwrap()
        };
        let line = &mut lines[at("start", "line")];
        let range = at("start", "character")..at("end", "character");
        line.replace_range(range, edit["newText"].as_str().unwrap());
    }
    lines.join("\n")
}

/// Files in memory, by their paths.
struct InMemory<'a>(&'a BTreeMap<String, String>);

impl<'a> edd_testing::Files for InMemory<'a> {
    type Reader = &'a [u8];

    fn open(&mut self, name: &str) -> Result<&'a [u8], FileFault> {
        // The description is named by `../`.
        let name = name.replace("tests/../", "");
        let text = self.0.get(&name).ok_or(FileFault::Missing)?;
        Ok(text.as_bytes())
    }

    fn save(&mut self, _name: &str, _bytes: &[u8]) -> Result<(), FileFault> {
        Err(FileFault::MayNotWrite)
    }
}

/// The files of an example, by their paths.
struct Example {
    folder: PathBuf,
    files: BTreeMap<String, String>,
    tests: String,
}

impl Example {
    fn named(name: &str) -> Example {
        let folder = examples("first.edd").remove(0);
        let folder = folder.parent().unwrap().to_owned();
        let tests = format!("tests/{name}.test");
        let names = [
            format!("{name}.edd"),
            format!("{name}.device.edd"),
            tests.clone(),
        ];
        let read = |name: String| Some((name.clone(), fs::read_to_string(folder.join(name)).ok()?));
        let files = names.into_iter().filter_map(read).collect();
        Example {
            folder,
            files,
            tests,
        }
    }

    /// What running the tests says.
    fn run(&self) -> Summary {
        let request = Request {
            files: &[&self.tests],
            filter: None,
            is_update: false,
            words: &[],
        };
        let mut printed = Vec::new();
        run_tests(
            &request,
            &mut InMemory(&self.files),
            &mut Lines(&mut printed),
        )
        .unwrap()
    }

    /// The example with the edits of an answer.
    fn with(&self, changes: &Value) -> Example {
        let files = self.files.iter().map(|(name, text)| {
            let edits = &changes[format!("file://{}", self.folder.join(name).display())];
            let text = match edits.is_array() {
                true => edited(text, edits),
                false => text.clone(),
            };
            (name.clone(), text)
        });
        Example {
            files: files.collect(),
            folder: self.folder.clone(),
            tests: self.tests.clone(),
        }
    }
}

/// All tests of an example still pass once any of its variables, methods or menus has another name.
#[test]
fn the_tests_of_the_examples_pass_with_other_names() {
    let mut in_tests = 0;
    let mut on_screens = Vec::new();
    for name in [
        "flow_transmitter",
        "pressure_transmitter",
        "tank",
        "temperature_scanner",
        "temperature_transmitter",
        "valve_positioner",
    ] {
        let example = Example::named(name);
        let before = example.run();
        assert!(before.is_success(), "{name}: {before}");
        let path = example.folder.join(format!("{name}.edd"));
        let mut session = greeted();
        open(&mut session, &path);
        let text = &example.files[&format!("{name}.edd")];
        for (number, line) in text.lines().enumerate() {
            let words: Vec<_> = line.split_whitespace().collect();
            let [kind @ ("VARIABLE" | "METHOD" | "MENU"), item, "{"] = words.as_slice() else {
                continue;
            };
            // Without a label it is shown on a screen by its name, in columns that would be others.
            let mut screens = example.files[&example.tests].lines();
            if screens.any(|line| {
                line.starts_with("=  ") && line.split_whitespace().nth(2) == Some(*item)
            }) {
                on_screens.push((*item).to_owned());
                continue;
            }
            let changes = renamed(&mut session, &path, number, kind.len() + 1);
            let other = example.with(&changes);
            assert_ne!(other.files[&format!("{name}.edd")], *text, "{item}");
            let ran = other.run();
            assert_eq!(ran, before, "{name}: {item}");
            in_tests += usize::from(other.files[&other.tests] != example.files[&example.tests]);
        }
    }
    assert_eq!(on_screens, ["output_menu"]);
    assert!(in_tests > 40, "{in_tests}");
}

/// Without the changes in its tests an example fails, so that the test above says something.
#[test]
fn the_tests_of_an_example_name_what_is_renamed() {
    let example = Example::named("flow_transmitter");
    let path = example.folder.join("flow_transmitter.edd");
    let mut session = greeted();
    open(&mut session, &path);
    let text = &example.files["flow_transmitter.edd"];
    let mut lines = text.lines();
    let line = lines.position(|line| line.starts_with("VARIABLE reference_flow"));
    let changes = renamed(&mut session, &path, line.unwrap(), 9);
    let mut other = example.with(&changes);
    let tests = example.files[&example.tests].clone();
    other.files.insert(example.tests.clone(), tests);
    assert!(!other.run().is_success());
}
