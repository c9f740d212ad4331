//! What a trace tells of a run is what the core plays, and it is said where the source does it.

#![allow(
    clippy::expect_used,
    clippy::indexing_slicing,
    clippy::panic,
    reason = "a test fails by a panic"
)]

mod inputs;

use core_std::alloc::Global;
use edd_loader::load;
use edd_machine::Values;
use edd_port::Transcript;
use edd_run::{MethodRun, find_method};
use edd_syntax::answer::Trap;
use edd_trace::{Cause, Description, Event, EventKind, LocalValue, trace};
use inputs::{Input, try_inputs};

/// Less than what a trace follows.
const STEPS: u32 = 20_000;

fn start_and_play(image: &[u8], script: &str) -> (Vec<i64>, Transcript) {
    let image = load(Global, image).expect("an image");
    let script = edd_script::parse(Global, &image, script.as_bytes()).expect("a script");
    let method = find_method(&image, "m").expect("a method");
    let values = Values::new(Global, &image, &script.values).expect("values");
    let start = values.numbers.to_vec();
    let played = edd_port::play(
        Global,
        &image,
        method,
        values,
        &script.answers,
        STEPS.into(),
    );
    (start, played.expect("a run"))
}

fn check_run(events: &[Event], start: Vec<i64>, played: &Transcript) {
    let mut requests = Vec::new();
    let mut values = start;
    let mut endings = Vec::new();
    for event in events {
        match event.kind {
            EventKind::Asks { number, request } => {
                requests.push(request);
                assert_eq!(number, requests.len());
            }
            EventKind::Changes {
                variable, old, new, ..
            } => {
                let value = &mut values[usize::from(variable.0)];
                assert_eq!(*value, old);
                assert_ne!(old, new);
                *value = new;
            }
            EventKind::Ends(ending) => endings.push(ending),
            _ => {}
        }
    }
    assert_eq!(requests, played.requests.as_slice());
    assert_eq!(values, played.values.numbers.as_slice());
    assert_eq!(endings, [played.ending]);
}

/// The words at whose place an event may be told; none where it has no place.
fn words_of(kind: &EventKind) -> Option<Vec<&'static str>> {
    let words = match kind {
        EventKind::Asks { request, .. } => vec![request.kind().name()],
        EventKind::Changes {
            by: Cause::Method, ..
        } => vec![
            "=", "+=", "-=", "/=", "%=", "<<=", ">>=", "&=", "++", "--", "iassign",
        ],
        EventKind::Changes { .. } | EventKind::Aborts(Cause::Answer) => {
            vec!["PUT_MESSAGE", "GET_DEV_VAR_VALUE", "send_command"]
        }
        EventKind::Aborts(Cause::Method) => vec!["abort", "process_abort"],
        EventKind::EntersAbortMethod(_) => vec!["b"],
        EventKind::Traps(Trap::DivZero | Trap::DivOverflow) => vec!["/", "%", "/=", "%="],
        EventKind::Traps(Trap::BadShift) => vec!["<<", ">>", "<<=", ">>="],
        EventKind::Traps(Trap::NoElement) => vec!["["],
        _ => return None,
    };
    Some(words)
}

fn check_places(events: &[Event], source: &str) {
    for event in events {
        if let Some(words) = words_of(&event.kind) {
            let place = event.place.expect("a place");
            let word = place.read(source.as_bytes());
            assert!(words.contains(&word), "{event:?} at {word}");
        }
    }
}

fn check_locals(events: &[Event], source: &str) {
    for event in events {
        if let EventKind::HasLocals(locals) = &event.kind {
            let read = |local: &LocalValue| local.name.read(source.as_bytes());
            let mut names: Vec<_> = locals.iter().map(read).collect();
            names.sort_unstable();
            assert_eq!(names, ["i", "j"]);
        }
    }
}

#[test]
fn a_trace_agrees_with_the_play() {
    try_inputs(|Input { source, script }| {
        let description = Description::compile(source.as_bytes()).expect("a description");
        let image = load(Global, description.image()).expect("an image");
        let run = MethodRun {
            method: "m",
            script: script.as_bytes(),
            language: "en",
            steps: STEPS,
        };
        let events = trace(&description, &image, &run, None).expect("a trace");
        let (start, played) = start_and_play(description.image(), &script);
        check_run(&events, start, &played);
        check_places(&events, &source);
        check_locals(&events, &source);
    });
}
