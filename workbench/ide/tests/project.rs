//! What files that belong together say of each other.

#![allow(
    clippy::arithmetic_side_effects,
    clippy::panic,
    clippy::string_slice,
    clippy::unwrap_used,
    reason = "a test fails by a panic"
)]

use edd_ide::{Document, Place, Project, RenameError};
use proptest::collection::vec;
use proptest::prelude::*;
use proptest::sample::{Index, select};
use proptest::test_runner::{Config, RngAlgorithm, TestRng, TestRunner};

const TANK: &str = "MANUFACTURER 1, DEVICE_TYPE 2, DEVICE_REVISION 3, DD_REVISION 4
VARIABLE level { LABEL \"Level\"; TYPE INTEGER (2); }
VARIABLE alarm { LABEL \"Alarm\"; TYPE UNSIGNED_INTEGER (1); }
COMMAND read_level { NUMBER 7; OPERATION READ; TRANSACTION { REPLY { level } } }
METHOD check { LABEL \"Check\"; DEFINITION { send_command(7); alarm = level; } }
MENU top { LABEL \"Tank\"; ITEMS { level, alarm, check } }
";

const DEVICE: &str = "MANUFACTURER 1, DEVICE_TYPE 2, DEVICE_REVISION 3, DD_REVISION 4
VARIABLE level { TYPE INTEGER (2); }
VARIABLE noise { TYPE INTEGER (2); }
METHOD command_7_0 { DEFINITION { level = level + noise; } }
METHOD command_70_0 { DEFINITION { } }
";

const TESTS: &str = "source ../tank.edd
device ../tank.device.edd

test it is checked
method check
set level 5
= ask send_command 7
= end ended
= value level 5
= value alarm 5
test it is shown
show
~ variable level INTEGER 2
~ ITEMS level alarm check
test there is no such method
method level
= refused 301 NO_METHOD level
";

const SCRIPT: &str = "set alarm 1\nanswer 0 level=4 alarm=2\n";

/// The files of a tank, some of them with other texts.
struct Files(Vec<(&'static str, Document)>);

impl Files {
    fn with(others: &[(&'static str, &str)]) -> Files {
        let usual = [
            ("/t/tank.edd", TANK),
            ("/t/tank.device.edd", DEVICE),
            ("/t/tests/tank.test", TESTS),
            ("/t/tank.full.script", SCRIPT),
            ("/t/vat.script", "set level 1\n"),
        ];
        let files = others.iter().chain(&usual);
        Files(
            files
                .map(|(path, text)| (*path, Document::named(path, *text)))
                .collect(),
        )
    }

    fn project(&self) -> Project<'_> {
        Project::new(self.0.iter().map(|(path, document)| (*path, document)))
    }

    fn text(&self, path: &str) -> &str {
        let file = self.0.iter().find(|(it, _)| *it == path);
        file.unwrap().1.text()
    }

    /// The byte at which a part of a text begins.
    fn byte(&self, path: &str, part: &str) -> usize {
        self.text(path).find(part).unwrap()
    }

    /// A place as its file, its line counted from 1, and its text.
    fn shown(&self, place: Place<'_>) -> String {
        let text = self.text(place.path);
        let line = text[..place.span.start].matches('\n').count() + 1;
        let name = place.path.trim_start_matches("/t/");
        format!("{name}:{line} {}", place.span.text(text).unwrap())
    }

    fn all(&self, places: &[Place<'_>]) -> Vec<String> {
        places.iter().map(|place| self.shown(*place)).collect()
    }
}

#[test]
fn a_variable_is_named_in_all_files() {
    let files = Files::with(&[]);
    let everywhere = [
        "tank.device.edd:2 level",
        "tank.device.edd:4 level",
        "tank.device.edd:4 level",
        "tank.edd:2 level",
        "tank.edd:4 level",
        "tank.edd:5 level",
        "tank.edd:6 level",
        "tank.full.script:2 level",
        "tests/tank.test:6 level",
        "tests/tank.test:9 level",
        "tests/tank.test:13 level",
        "tests/tank.test:14 level",
    ];
    for (path, part) in [
        ("/t/tank.edd", "level }"),
        ("/t/tank.device.edd", "level +"),
        ("/t/tests/tank.test", "level 5"),
        ("/t/tests/tank.test", "level alarm"),
        ("/t/tank.full.script", "level=4"),
    ] {
        let byte = files.byte(path, part);
        let found = files.project().references(path, byte, true);
        assert_eq!(files.all(&found), everywhere, "{path}");
        let found = files.project().rename(path, byte, "height").unwrap();
        assert_eq!(files.all(&found), everywhere, "{path}");
        let declared = files.project().declaration(path, byte).unwrap();
        let own = if path.ends_with(".device.edd") {
            "tank.device.edd:2 level"
        } else {
            "tank.edd:2 level"
        };
        assert_eq!(files.shown(declared), own);
    }
    let byte = files.byte("/t/tank.edd", "level }");
    let used = files.project().references("/t/tank.edd", byte, false);
    assert_eq!(used.len(), everywhere.len() - 2);
}

#[test]
fn methods_and_commands_are_named_in_tests_and_devices() {
    let files = Files::with(&[]);
    let project = files.project();
    let byte = files.byte("/t/tests/tank.test", "check\n");
    let found = project.references("/t/tests/tank.test", byte, true);
    let wanted = [
        "tank.edd:5 check",
        "tank.edd:6 check",
        "tests/tank.test:5 check",
        "tests/tank.test:14 check",
    ];
    assert_eq!(files.all(&found), wanted);
    let wanted = ["tank.device.edd:4 command_7_0", "tank.edd:4 read_level"];
    for (path, part) in [
        ("/t/tank.edd", "read_level"),
        ("/t/tank.device.edd", "command_7_0"),
    ] {
        let found = project.references(path, files.byte(path, part), true);
        assert_eq!(files.all(&found), wanted);
    }
    // The method has the number of the command, and not its name.
    let byte = files.byte("/t/tank.edd", "read_level");
    let renamed = project.rename("/t/tank.edd", byte, "read_it").unwrap();
    assert_eq!(files.all(&renamed), ["tank.edd:4 read_level"]);
    let byte = files.byte("/t/tank.device.edd", "command_7_0");
    let place = project.declaration("/t/tank.device.edd", byte).unwrap();
    assert_eq!(files.shown(place), "tank.edd:4 read_level");
    let told = project.hover("/t/tank.device.edd", byte).unwrap().markdown;
    let wanted = "`METHOD command_7_0`\n\n`COMMAND read_level`\n\nNUMBER `7`, OPERATION `READ`";
    assert_eq!(told, wanted);
    let other = files.byte("/t/tank.device.edd", "command_70_0");
    let place = project.declaration("/t/tank.device.edd", other).unwrap();
    assert_eq!(files.shown(place), "tank.device.edd:5 command_70_0");
    let byte = files.byte("/t/tests/tank.test", "../tank.edd");
    let place = project.declaration("/t/tests/tank.test", byte).unwrap();
    assert_eq!((place.path, place.span.start), ("/t/tank.edd", 0));
}

#[test]
fn a_name_that_is_taken_on_the_other_side_is_refused() {
    let files = Files::with(&[]);
    let project = files.project();
    let byte = files.byte("/t/tank.edd", "level");
    for (new, path) in [
        ("noise", "/t/tank.device.edd"),
        ("alarm", "/t/tank.edd"),
        ("check", "/t/tank.edd"),
    ] {
        let error = project.rename("/t/tank.edd", byte, new).unwrap_err();
        assert_eq!(error.path, path);
        assert!(matches!(error.error, RenameError::Clash(_)), "{new}");
    }
    // The device has no `alarm`, so nothing would be taken there but the tie would be another one.
    let byte = files.byte("/t/tank.edd", "alarm");
    let error = project.rename("/t/tank.edd", byte, "noise").unwrap_err();
    assert_eq!(error.path, "/t/tank.device.edd");
    let byte = files.byte("/t/tank.device.edd", "noise");
    let error = project
        .rename("/t/tank.device.edd", byte, "alarm")
        .unwrap_err();
    assert_eq!(error.path, "/t/tank.edd");
    let error = project.rename("/t/vat.script", 5, "x").unwrap_err();
    assert_eq!(error.error, RenameError::NothingHere);
}

#[test]
fn tests_that_run_a_method_are_found() {
    let files = Files::with(&[]);
    let byte = files.byte("/t/tank.edd", "check");
    let runs = files.project().runs("/t/tank.edd", byte);
    let [run] = runs.as_slice() else {
        panic!("{runs:?}");
    };
    assert_eq!(files.shown(run.test), "tests/tank.test:4 it is checked");
    assert_eq!(files.shown(run.method), "tests/tank.test:5 check");
    let (path, symbol) = files
        .project()
        .callable("/t/tests/tank.test", run.method.span.start)
        .unwrap();
    assert_eq!((path, symbol.name), ("/t/tank.edd", "check"));
    let level = files.byte("/t/tank.edd", "level");
    assert!(files.project().runs("/t/tank.edd", level).is_empty());
}

/// What is wrong with a file, as its numbers and the texts at fault.
fn findings(files: &Files, path: &str) -> Vec<String> {
    let found = files.project().findings(path).into_iter();
    let shown = found.map(|it| {
        let text = it.span.unwrap().text(files.text(path)).unwrap();
        let helps: Vec<_> = it
            .helps
            .iter()
            .map(|help| help.advice.to_string())
            .collect();
        format!("{} {text}: {}", it.kind, helps.join(", "))
    });
    shown.collect()
}

#[test]
fn names_that_the_description_does_not_have_are_found() {
    let tests = "source ../tank.edd\ntest one\nmethod chek\nset levl 1\nanswer 0 level=1 alarm=999\n= value alrm 1\n= value check 1\n= ask PUT_MESSAGE \"value none\"\ntest two\nshow\nset alarm -1\nsteps 3\n~ menu tip\n~ method check\n~ ITEMS none\n";
    let files = Files::with(&[
        ("/t/tests/tank.test", tests),
        (
            "/t/tank.full.script",
            "set check 1\nanswer x\n\nset level 1 2\n",
        ),
    ]);
    let wanted = [
        "301 NO_METHOD chek chek: check may be meant",
        "300 SCRIPT levl: no variable has the name `levl`; `level` may be meant",
        "207 OUT_OF_RANGE alarm=999: alarm is UNSIGNED_INTEGER (1), which holds 0 to 255",
        "21 UNKNOWN_NAME alrm alrm: alarm may be meant",
        "21 UNKNOWN_NAME check check: ",
        "202 RANGE -1: alarm is UNSIGNED_INTEGER (1), which holds 0 to 255",
        "296 MISPLACED steps 3: ",
        "21 UNKNOWN_NAME tip tip: ",
    ];
    assert_eq!(findings(&files, "/t/tests/tank.test"), wanted);
    let wanted = [
        "300 SCRIPT check: `check` is no variable",
        "300 SCRIPT x: `x` is no code, a decimal number of 32 bits: `answer CODE NAME=N ..`",
        "300 SCRIPT 2: nothing stands behind the value: `set NAME N`",
    ];
    assert_eq!(findings(&files, "/t/tank.full.script"), wanted);
}

#[test]
fn nothing_is_found_without_a_description_that_is_accepted() {
    let usual = Files::with(&[]);
    assert!(findings(&usual, "/t/tests/tank.test").is_empty());
    assert!(findings(&usual, "/t/vat.script").is_empty());
    let broken = Files::with(&[("/t/tank.edd", "VARIABLE level {")]);
    assert!(findings(&broken, "/t/tests/tank.test").is_empty());
}

#[test]
fn a_line_that_must_not_be_printed_may_name_nothing() {
    let tests = "source ../tank.edd\ntest one\nshow\n! variable gone INTEGER 2\n! variable level INTEGER 2\n";
    let path = "/t/tests/tank.test";
    let files = Files::with(&[(path, tests)]);
    assert_eq!(findings(&files, path), [""; 0]);
    let byte = files.byte(path, "level");
    let places = files.project().rename(path, byte, "height").unwrap();
    let of_tests = places.iter().filter(|place| place.path == path);
    assert_eq!(of_tests.count(), 1);
}

#[test]
fn what_names_a_description_depends_on_it() {
    let files = Files::with(&[]);
    let project = files.project();
    let dependents = ["/t/tank.full.script", "/t/tests/tank.test"];
    assert_eq!(project.dependents("/t/tank.edd"), dependents);
    assert!(project.dependents("/t/tank.device.edd").is_empty());
    assert!(project.is_device("/t/tank.device.edd"));
    assert!(!project.is_device("/t/tank.edd"));
}

/// What may be written behind a text in a file.
fn labels(path: &'static str, text: &str) -> Vec<String> {
    let files = Files::with(&[(path, text)]);
    let found = files.project().completions(path, text.len());
    let replaced = found.replaced.text(text).unwrap();
    let labels = found.entries.iter().map(|entry| entry.label);
    std::iter::once(replaced)
        .chain(labels)
        .map(str::to_owned)
        .collect()
}

#[test]
fn names_are_completed() {
    let begun = "source ../tank.edd\ntest t\n";
    let labels_in_test = |line| labels("/t/tests/tank.test", &[begun, line].concat());
    assert_eq!(labels_in_test("method c"), ["c", "check"]);
    assert_eq!(labels_in_test("set "), ["", "level", "alarm"]);
    assert_eq!(
        labels_in_test("method check\nanswer 0 level=1 al"),
        ["al", "alarm", "level"]
    );
    assert_eq!(labels_in_test("answer "), [""]);
    assert_eq!(labels_in_test("= value "), [""]);
    assert_eq!(labels("/t/tank.script", "set l"), ["l", "level", "alarm"]);
    assert_eq!(labels("/t/none.script", "set "), [""]);
}

#[test]
fn what_a_description_says_is_told_in_tests_and_scripts() {
    let files = Files::with(&[]);
    let told = files.project().hover("/t/tank.full.script", 4).unwrap();
    assert_eq!(told.span.range(), 4..9);
    assert!(
        told.markdown.starts_with("`VARIABLE alarm`\n\nAlarm"),
        "{}",
        told.markdown
    );
    assert!(files.project().hover("/t/tank.full.script", 0).is_none());
    let byte = files.byte("/t/tank.edd", "level");
    let told = files.project().hover("/t/tank.edd", byte).unwrap();
    assert!(told.markdown.starts_with("`VARIABLE level`"));
}

/// Lines of tests and scripts, in whatever order, with a character put in somewhere.
fn damaged() -> impl Strategy<Value = String> {
    let lines = [TESTS, SCRIPT].join("\n");
    let lines: Vec<String> = lines.split_inclusive('\n').map(str::to_owned).collect();
    let signs = select(vec!["\n", " ", "=", "\u{e4}", "\r", "test ", "set "]);
    (vec(select(lines), 0..20), any::<Index>(), signs).prop_map(|(lines, at, sign)| {
        let mut text = lines.concat();
        let places: Vec<usize> = text.char_indices().map(|(place, _)| place).collect();
        let place = if places.is_empty() {
            0
        } else {
            *at.get(&places)
        };
        text.insert_str(place, sign);
        text
    })
}

/// Asks everything at each byte of a file, and looks whether all places are in their texts, and whether
/// a name that can be changed is changed there too.
fn ask_all(files: &Files, path: &'static str) {
    let project = files.project();
    let text = files.text(path);
    for byte in (0..=text.len()).filter(|byte| text.is_char_boundary(*byte)) {
        let mut places = project.references(path, byte, true);
        places.extend(project.declaration(path, byte));
        let own = project.renameable(path, byte);
        let found = project.completions(path, byte).replaced;
        places.extend(
            own.into_iter()
                .chain([found])
                .map(|span| Place { path, span }),
        );
        places.extend(project.findings(path).iter().map(|it| Place {
            path,
            span: it.span.unwrap(),
        }));
        for place in &places {
            assert!(
                place.span.text(files.text(place.path)).is_some(),
                "{place:?}"
            );
        }
        if own.is_some() {
            let renamed = project.rename(path, byte, "other_name").unwrap();
            assert!(renamed.iter().any(|place| place.path == path));
        }
        project.hover(path, byte);
    }
}

#[test]
fn all_places_are_in_their_texts() {
    let config = Config {
        failure_persistence: None,
        cases: 64,
        ..Config::default()
    };
    let random = TestRng::deterministic_rng(RngAlgorithm::ChaCha);
    let ran = TestRunner::new_with_rng(config, random).run(&damaged(), |text| {
        for path in ["/t/tests/tank.test", "/t/tank.full.script"] {
            ask_all(&Files::with(&[(path, text.as_str())]), path);
        }
        Ok(())
    });
    assert_eq!(ran, Ok(()));
}
