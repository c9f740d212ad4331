//! The library says what the core says.

#![allow(
    clippy::arithmetic_side_effects,
    clippy::expect_used,
    clippy::indexing_slicing,
    clippy::panic,
    reason = "a test fails by a panic"
)]

mod common;

use core_std::alloc::Global;
use edd::{
    Answer, Drive, Ending, Host, Image, MethNo, Request, Session, Severity, Turn, drive, play,
};
use std::convert::Infallible;

/// Compiles a source by the library and by the core, which must agree, and checks it.
fn compare(source: &[u8]) -> bool {
    let report = edd::check(source);
    match (edd::compile(source), edd_compiler::compile(Global, source)) {
        (Ok(image), Ok(bytes)) => {
            assert_eq!(image.bytes(), bytes.as_slice());
            assert!(!report.is_refused);
            let is_refusal = |severity| severity == Severity::Refused;
            assert!(
                !report
                    .diagnostics
                    .iter()
                    .any(|found| is_refusal(found.severity))
            );
            true
        }
        (Err(refusal), Err(fault)) => {
            let words = fault.refusal(Global, source).expect("memory");
            assert_eq!(refusal.to_string(), words.as_str());
            assert!(report.is_refused);
            assert_eq!(report.diagnostics[0].message, words.as_str());
            assert_eq!(report.diagnostics[0].severity, Severity::Refused);
            false
        }
        (compiled, _) => panic!("the library alone has {compiled:?}"),
    }
}

#[test]
fn the_examples_have_the_images_of_the_core() {
    for (name, source) in common::sources() {
        assert!(compare(&source), "{name} is accepted");
    }
}

#[test]
fn cut_examples_are_refused_alike() {
    for (_, source) in common::sources() {
        for cut in (0..source.len()).step_by(97) {
            compare(&source[..cut]);
            compare(&source[cut..]);
        }
    }
}

#[test]
fn each_number_is_printed_as_by_the_core() {
    let mut numbers = std::collections::BTreeSet::new();
    for source in common::sources_of_page("REFUSALS.md") {
        if !compare(&source) {
            numbers.extend(edd::compile(&source).err().map(|refusal| refusal.number()));
        }
    }
    // What is too long for a page, or no text.
    let shown = [3, 4, 5, 6, 7, 8, 10, 12, 20, 21, 22, 23, 24];
    let more = [30, 31, 32, 33, 34, 35, 36, 37, 38];
    for number in shown.into_iter().chain(more) {
        assert!(
            numbers.contains(&number),
            "{number} is not among {numbers:?}"
        );
    }
    let deep = format!("{}0{}", "(".repeat(200), ")".repeat(200));
    let deep = format!(
        "{}METHOD m {{ DEFINITION {{ {deep}; }} }}",
        common::IDENTIFICATION
    );
    assert_eq!(
        edd::compile(deep.as_bytes())
            .expect_err("a refusal")
            .number(),
        11
    );
    assert!(!compare(deep.as_bytes()));
    assert!(!compare(b"\xFF"));
    assert!(!compare(&vec![b' '; 1_048_577]));
}

#[test]
fn too_many_strings_are_refused_as_by_the_core() {
    let mut source =
        String::from("MANUFACTURER 1, DEVICE_TYPE 2, DEVICE_REVISION 3, DD_REVISION 4\n");
    source.push_str("VARIABLE v { TYPE ENUMERATED (4) {\n");
    for number in 0..65_600 {
        source.push_str(&format!("{{{number},\"{number}\"}}"));
        source.push(if number == 65_599 { ' ' } else { ',' });
    }
    source.push_str("} }");
    let refusal = edd::compile(source.as_bytes()).expect_err("too many strings");
    assert!(refusal.to_string().starts_with("40 TOO_MANY "), "{refusal}");
    compare(source.as_bytes());
}

/// Answers everything with 0, and keeps the requests.
struct Zeros(Vec<Request>);

impl Host for Zeros {
    type Error = Infallible;

    fn reply(&mut self, request: &Request) -> Result<Option<Answer>, Infallible> {
        self.0.push(*request);
        Ok(Some(Answer::code(0)))
    }
}

/// The most instructions of a method that are executed.
const MOST: u64 = 20_000;

/// A method that is advanced by a budget to its end. Each answer is 0.
fn run_by(image: &Image, method: MethNo, budget: u32) -> Option<Session> {
    let mut session = Session::start(image, method, image.start_values()).expect("a session");
    let mut answers = 0;
    while session.taken() < MOST && answers < 1000 {
        match session.advance(budget) {
            Turn::Asks(_) => session.answer(&Answer::code(0)).expect("an answer"),
            Turn::Spent => continue,
            _ => return Some(session),
        }
        answers += 1;
    }
    None
}

#[test]
fn a_run_is_the_same_however_it_is_made() {
    let mut compared = 0;
    for image in common::IMAGES.iter() {
        for method in common::methods(image) {
            let Some(session) = run_by(image, method, 1000) else {
                continue;
            };
            let slow = run_by(image, method, 7).expect("an end");
            assert_eq!(
                (slow.turn(), slow.taken()),
                (session.turn(), session.taken())
            );
            assert_eq!(slow.values(), session.values());

            let mut host = Zeros(Vec::new());
            let mut driven =
                Session::start(image, method, image.start_values()).expect("a session");
            let end = drive(&mut driven, &mut host, MOST);
            assert_eq!(end, Drive::Done(session.turn()));
            assert_eq!(driven.values(), session.values());

            let answers = vec![Answer::code(0); host.0.len()];
            let played = play(image, method, image.start_values(), &answers, MOST);
            let played = played.expect("a transcript");
            assert_eq!(played.requests, host.0);
            assert_eq!(&played.values, session.values());
            assert_ne!(played.ending, Ending::Waiting);
            compared += 1;
        }
    }
    assert!(compared > 5, "{compared} methods end");
}

#[test]
fn examples_are_in_their_layout() {
    for (name, source) in common::sources() {
        assert_eq!(edd::format(&source), Ok(source), "{name}");
    }
}
