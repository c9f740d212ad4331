//! The program as a process: its words, its standard input and output, and its status.

#![allow(clippy::expect_used, reason = "a test fails by a panic")]

use std::ffi::{OsStr, OsString};
use std::fs::File;
use std::io::Write;
use std::os::unix::ffi::OsStringExt;
use std::process::{Command, Output, Stdio};

const SOURCE: &str = r#"MANUFACTURER 1, DEVICE_TYPE 2, DEVICE_REVISION 3, DD_REVISION 4
VARIABLE p { LABEL "|en|Pressure|de|Druck"; TYPE INTEGER (2); }
"#;

/// Runs the program with this text on its standard input.
fn run(words: impl IntoIterator<Item = impl AsRef<OsStr>>, typed: &str) -> Output {
    let mut child = Command::new(env!("CARGO_BIN_EXE_edd"))
        .args(words)
        .stdin(Stdio::piped())
        .stdout(Stdio::piped())
        .stderr(Stdio::piped())
        .spawn()
        .expect("the program");
    let mut stdin = child.stdin.take().expect("its standard input");
    // A program that ends early leaves what is typed.
    let _ = stdin.write_all(typed.as_bytes());
    drop(stdin);
    child.wait_with_output().expect("its output")
}

fn printed(output: &Output) -> (&str, Option<i32>) {
    (
        std::str::from_utf8(&output.stdout).expect("text"),
        output.status.code(),
    )
}

#[test]
fn the_version_says_what_the_program_is() {
    let output = run(["--version"], "");
    let line = "edd 1.0, ordinary Rust over the proved core\n";
    assert_eq!(printed(&output), (line, Some(0)));
}

#[test]
fn a_source_is_read_and_shown() {
    let output = run(["view", "/dev/stdin", "--lang", "de"], SOURCE);
    let lines =
        "identification 1 2 3 4\nvariable p INTEGER 2\nLABEL \"Druck\"\nHANDLING 3\nVALIDITY 1\n";
    assert_eq!(printed(&output), (lines, Some(0)));
}

#[test]
fn a_refusal_has_its_status() {
    let output = run(["view", "-"], "no description");
    assert_eq!(printed(&output), ("refused 10 SYNTAX line 1\n", Some(1)));
}

#[test]
fn words_that_are_not_text_are_a_mistake_of_the_command_line() {
    let output = run([OsString::from_vec(vec![0xff])], "");
    let line = "error: the arguments are not text\n";
    assert_eq!(printed(&output), (line, Some(2)));
}

#[test]
fn a_file_that_is_not_there_has_the_status_of_files() {
    let output = run(["show", "no such file"], "");
    assert_eq!(output.status.code(), Some(3));
}

#[test]
fn what_helps_is_on_the_standard_error_unless_it_is_quiet() {
    let hint = "-: refused 10 SYNTAX line 1\nhelp: a description begins with MANUFACTURER .., \
        DEVICE_TYPE .., DEVICE_REVISION .., DD_REVISION ..\n";
    let output = run(["view", "-"], "");
    assert_eq!(String::from_utf8_lossy(&output.stderr), hint);
    let output = run(["view", "-", "--quiet"], "");
    assert_eq!(printed(&output), ("refused 10 SYNTAX line 1\n", Some(1)));
    assert!(output.stderr.is_empty());
}

#[test]
fn a_standard_error_that_takes_nothing_changes_nothing() {
    let output = Command::new(env!("CARGO_BIN_EXE_edd"))
        .args(["view", "no such file"])
        .stderr(File::open("/dev/null").expect("a file that is only read"))
        .output()
        .expect("its output");
    assert_eq!(printed(&output), ("file no such file\n", Some(3)));
}

#[test]
fn an_image_on_the_standard_output_stands_alone_where_it_is_quiet() {
    let output = run(["compile", "-q", "-", "-"], SOURCE);
    assert!(output.stdout.starts_with(b"EDI1") && output.stderr.is_empty());
    assert!(!output.stdout.ends_with(b"\n"));
}
