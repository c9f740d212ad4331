//! No call panics, whatever it is given, and what it gives is what it promises.
//!
//! Each run tries the same inputs, 256 for each test. `EDD_SEED`, a number, makes other ones, and `PROPTEST_CASES` is another count.

#![allow(clippy::expect_used, clippy::panic, reason = "a test fails by a panic")]

mod common;
mod inputs;

use common::{IMAGES, methods, sources};
use edd::{
    Answer, AnswerFault, Attr, AttrRef, Command, Device, Image, ItemNo, Kind, Panel, Refusal,
    Session, Turn, Values, VarNo,
};
use inputs::try_inputs;
use proptest::collection::vec;
use proptest::prelude::*;
use proptest::sample::Index;
use std::sync::LazyLock;

static SOURCES: LazyLock<Vec<Vec<u8>>> =
    LazyLock::new(|| sources().into_iter().map(|(_, source)| source).collect());

/// Words that come together to what is nearly a source.
const WORDS: [&str; 24] = [
    "VARIABLE",
    "METHOD",
    "MENU",
    "COMMAND",
    "COLLECTION",
    "ARRAY",
    "OF",
    "p",
    "q",
    "LABEL",
    "TYPE",
    "INTEGER",
    "ENUMERATED",
    "DEFINITION",
    "{",
    "}",
    "(",
    ")",
    ";",
    ",",
    "1",
    "0x7F",
    "\"|de|Druck\"",
    "+",
];

/// Bytes with some of their own in the place of others.
fn damaged(of: &[u8], edits: &[(Index, u8)]) -> Vec<u8> {
    let mut bytes = of.to_vec();
    for (place, byte) in edits {
        if let Some(old) = bytes.get_mut(place.index(of.len().max(1))) {
            *old = *byte;
        }
    }
    bytes
}

/// A refusal without its line, which another layout moves.
fn numbered(compiled: Result<Image, Refusal>) -> Result<Image, u16> {
    compiled.map_err(|refusal| refusal.number())
}

/// What is promised of each source.
fn look_at(source: &[u8]) {
    let report = edd::check(source);
    let compiled = edd::compile(source);
    assert_eq!(report.is_refused, compiled.is_err());
    for found in &report.diagnostics {
        let related = found.related.iter().map(|related| &related.range);
        let edits = found.fixes.iter().flat_map(|fix| &fix.edits);
        let edited = edits.map(|edit| &edit.range);
        for range in related.chain(edited).chain(&found.range) {
            assert!(source.get(range.clone()).is_some(), "{range:?} lies inside");
        }
    }
    if let Ok(laid_out) = edd::format(source) {
        assert_eq!(
            numbered(edd::compile(&laid_out)),
            numbered(compiled.clone())
        );
    }
    if let Ok(image) = compiled {
        assert_eq!(Image::load(image.bytes()), Ok(image));
    }
}

fn answers() -> impl Strategy<Value = Answer> {
    let small = (-2..3i32, vec((0..12u16, -100..100i64), 0..3));
    let large = (any::<i32>(), vec(any::<(u16, i64)>(), 0..3));
    let go = prop_oneof![3 => small, 1 => large].prop_map(|(code, sets)| {
        let sets = sets
            .into_iter()
            .map(|(variable, value)| (VarNo(variable), value));
        Answer::Go {
            code,
            sets: sets.collect(),
        }
    });
    prop_oneof![8 => go, 1 => Just(Answer::Abort)]
}

fn commands() -> impl Strategy<Value = Command> {
    prop_oneof![
        4 => (1..9i64).prop_map(Command::Number),
        1 => any::<i64>().prop_map(Command::Number),
        1 => Just(Command::Enter),
        1 => Just(Command::Back),
        1 => Just(Command::Abort),
    ]
}

/// What a user or a program does with a panel.
#[derive(Clone, Debug)]
enum Act {
    Perform(Command),
    Answer(Answer),
    Advance(u32),
    Line(String),
    Help(Option<i64>),
}

fn acts() -> impl Strategy<Value = Act> {
    prop_oneof![
        4 => commands().prop_map(Act::Perform),
        2 => answers().prop_map(Act::Answer),
        2 => (0..500u32).prop_map(Act::Advance),
        1 => vec(any::<char>(), 0..6).prop_map(|line| Act::Line(line.into_iter().collect())),
        1 => any::<Option<i64>>().prop_map(Act::Help),
    ]
}

fn act_on(panel: &mut Panel<'_, '_>, act: Act) {
    match act {
        Act::Perform(command) => {
            panel.perform(command);
        }
        Act::Answer(answer) => {
            let is_asking = matches!(panel.turn(), Some(Turn::Asks(_)));
            let answered = panel.answer(&answer);
            assert_eq!(answered == Err(AnswerFault::NotAsking), !is_asking);
        }
        Act::Advance(budget) => {
            panel.advance(budget);
        }
        Act::Line(line) => {
            panel.line(&line);
        }
        Act::Help(number) => {
            panel.help(number);
        }
    }
}

/// Values are in their ranges.
fn assert_are_values(values: &Values) {
    assert_eq!(
        Values::new(values.image(), values.numbers()).as_ref(),
        Ok(values)
    );
}

/// All that is shown of a panel.
fn show(panel: &Panel<'_, '_>) {
    let values = panel.values();
    assert_eq!(
        Ok(&values),
        edd::Values::new(values.image(), values.numbers()).as_ref()
    );
    assert!(!panel.lines().is_empty() && !panel.prompt().is_empty());
    panel.screen();
    panel.sheet();
    assert!(!format!("{panel:?}").is_empty());
}

#[test]
fn any_bytes() {
    try_inputs(vec(any::<u8>(), 0..300), |bytes| {
        look_at(&bytes);
        assert!(Image::load(bytes).is_err());
    });
}

#[test]
fn any_words() {
    try_inputs(vec(prop::sample::select(&WORDS[..]), 0..60), |words| {
        look_at(words.join(" ").as_bytes());
        look_at(format!("{}{}", common::IDENTIFICATION, words.join(" ")).as_bytes());
    });
}

#[test]
fn damaged_sources() {
    try_inputs(
        (any::<Index>(), vec(any::<(Index, u8)>(), 1..4)),
        |(which, edits)| {
            look_at(&damaged(which.get::<Vec<u8>>(&SOURCES), &edits));
        },
    );
}

#[test]
fn damaged_images() {
    try_inputs(
        (any::<Index>(), vec(any::<(Index, u8)>(), 1..3)),
        |(which, edits)| {
            if let Ok(image) = Image::load(damaged(which.get(&IMAGES).bytes(), &edits)) {
                let values = image.start_values();
                for item in image.items() {
                    let _ = image.label(item.number, "en", &values);
                    let _ = image.validity(item.number, &values);
                }
                for method in methods(&image) {
                    if let Ok(mut session) = Session::start(&image, method, image.values()) {
                        session.advance(1000);
                    }
                }
            }
        },
    );
}

#[test]
fn any_attributes() {
    try_inputs(
        (any::<Index>(), (1..7u8, 0..20u16), (1..23u8, 0..3u16)),
        |(which, (kind, index), (attr, sub))| {
            let image = which.get(&IMAGES);
            let item = ItemNo::from_numbers(kind, index).expect("a kind");
            let attr = Attr::from_number(attr).expect("an attribute");
            let _ = image.attribute(AttrRef { item, attr, sub }, &image.start_values());
            assert_eq!(
                image.item(item).is_some(),
                image.items().any(|other| other.number == item)
            );
        },
    );
}

#[test]
fn any_values() {
    try_inputs(
        (any::<Index>(), vec(any::<(u8, i64, bool)>(), 0..40)),
        |(which, sets)| {
            let image = which.get(&IMAGES);
            let mut values = image.start_values();
            for (variable, value, is_small) in sets {
                let value = if is_small { value % 200 } else { value };
                let variable = VarNo(u16::from(variable % 20));
                let before = values.get(variable);
                let is_set = values.set(variable, value).is_ok();
                assert_eq!(
                    values.get(variable),
                    if is_set { Some(value) } else { before }
                );
            }
            assert_are_values(&values);
        },
    );
}

#[test]
fn any_sessions() {
    try_inputs(
        (
            any::<Index>(),
            any::<Index>(),
            vec((0..2000u32, answers()), 1..20),
        ),
        |(which, method, steps)| {
            let image = which.get(&IMAGES);
            let all = methods(image);
            if let Some(method) = all.get(method.index(all.len().max(1))) {
                let started = Session::start(image, *method, image.start_values());
                let mut session = started.expect("a session");
                for (budget, answer) in steps {
                    let before = session.taken();
                    let turn = session.advance(budget);
                    let executed = session.taken().saturating_sub(before);
                    assert!(executed <= u64::from(budget));
                    assert!(turn != Turn::Spent || executed == u64::from(budget));
                    assert_eq!(turn, session.turn());
                    let answered = session.answer(&answer);
                    let is_asking = matches!(turn, Turn::Asks(_));
                    assert_eq!(answered == Err(AnswerFault::NotAsking), !is_asking);
                }
                assert_are_values(session.values());
            }
        },
    );
}

#[test]
fn any_panels() {
    try_inputs((any::<Index>(), vec(acts(), 1..40)), |(which, acts)| {
        let opened = which.get(&IMAGES).open();
        let values = opened.image().start_values();
        let mut panel = Panel::open(&opened, "de", values).expect("a panel");
        for act in acts {
            act_on(&mut panel, act);
            show(&panel);
        }
    });
}

#[test]
fn any_devices() {
    try_inputs(
        (any::<Index>(), any::<Index>(), vec(answers(), 0..5)),
        |(one, other, script)| {
            let (instrument, simulation) = (one.get(&IMAGES).open(), other.get(&IMAGES).open());
            let mut device = Device::start(&instrument, &simulation);
            for item in instrument.image().items_of(Kind::Method) {
                if let ItemNo::Method(method) = item.number {
                    let values = instrument.image().start_values();
                    let _ = device.play(method, values, &script, 2000);
                }
            }
        },
    );
}
