//! Edits of one description: the lines of each, and what holds of all pairs of edited descriptions.

#![allow(clippy::expect_used, reason = "a test fails by a panic")]

use core_std::alloc::Global;
use edd_compiler::compile;
use edd_diff::{Change, Difference, Differences, Note};
use edd_loader::load;

const SOURCE: &str = r#"MANUFACTURER 1, DEVICE_TYPE 2, DEVICE_REVISION 3, DD_REVISION 4
VARIABLE flow
{
  LABEL "|en|Flow|de|Durchfluß";
  TYPE INTEGER (2) { MIN_VALUE 0; MAX_VALUE IF (mode == 1) { 100; } ELSE { 50; } }
  VALIDITY IF (mode) { TRUE; } ELSE { FALSE; }
}
VARIABLE mode { TYPE ENUMERATED { { 0, "Off" } { 1, "On", "It runs" } { 2, "Test" } } }
VARIABLE rate { TYPE INTEGER; HANDLING READ; HELP [rate_help]; }
COMMAND read
{
  NUMBER 1; OPERATION READ;
  TRANSACTION { REQUEST { 7, mode } REPLY { flow <0x0F> } }
  RESPONSE_CODES { 0, SUCCESS, "Done"; 8, MISC_ERROR, "Failed"; }
}
MENU main { LABEL "Main"; ITEMS { flow, rate (READ_ONLY), IF (mode == 2) { reset } } }
COLLECTION OF VARIABLE all { MEMBERS { first, flow; second, rate; } }
ARRAY OF VARIABLE channels { ELEMENTS { 1, flow; 5, mode; } }
METHOD reset { LABEL "Reset"; DEFINITION { DELAY(5, "Wait"); flow = channels[1] + 7; } }
METHOD stop { LABEL "Stop"; DEFINITION { send_command(2); } }
"#;

/// A text of the source, what is in its place, and the lines of the differences but for the last.
const EDITS: &[(&str, &str, &str)] = &[
    ("VARIABLE flow\n", "VARIABLE\nflow ", ""),
    (
        "DD_REVISION 4",
        "DD_REVISION 5",
        "identification\n  DD_REVISION 4 -> 5\n",
    ),
    (
        "TYPE INTEGER (2)",
        "TYPE INTEGER (4)",
        "variable flow\n! TYPE INTEGER 2 -> INTEGER 4\n",
    ),
    (
        "|de|Durchfluß",
        "|fr|Débit",
        "variable flow\n  LABEL de gone: \"Durchfluß\"\n  LABEL fr new: \"Débit\"\n",
    ),
    (
        "MIN_VALUE 0;",
        "MIN_VALUE 5;",
        "variable flow\n  MIN_VALUE 0 -> 5, narrower\n",
    ),
    (
        "MIN_VALUE 0;",
        "MIN_VALUE rate + 1;",
        "variable flow\n  MIN_VALUE 0 -> rate + 1, may differ\n",
    ),
    (
        "{ 100; }",
        "{ 200; }",
        "variable flow\n  MAX_VALUE 100 -> 200, where mode == 1, wider\n",
    ),
    (
        "IF (mode == 1) { 100; } ELSE { 50; }",
        "50;",
        "variable flow\n  MAX_VALUE 100 -> 50, where mode == 1, narrower\n",
    ),
    (
        "  VALIDITY IF (mode) { TRUE; } ELSE { FALSE; }\n",
        "",
        "variable flow\n  VALIDITY FALSE -> TRUE, where !mode\n",
    ),
    (
        "{ 2, \"Test\" }",
        "{ 2, \"Hold\" } { 3, \"Test\" }",
        "variable mode\n! ENUMERATORS {2 \"Test\"} -> {2 \"Hold\"}\n  ENUMERATORS new: {3 \"Test\"}\n",
    ),
    (
        "HANDLING READ; ",
        "",
        "variable rate\n  HANDLING READ -> READ & WRITE\n",
    ),
    (
        "HELP [rate_help];",
        "HELP \"Rate\";",
        "variable rate\n  HELP [rate_help] -> \"Rate\"\n",
    ),
    (
        "REQUEST { 7, mode }",
        "REQUEST { 8, mode (INFO) }",
        "command read\n! REQUEST[0] 7, mode -> 8, mode(INFO)\n",
    ),
    (
        " 8, MISC_ERROR, \"Failed\";",
        "",
        "command read\n  RESPONSE_CODES gone: {8 MISC_ERROR \"Failed\"}\n",
    ),
    (
        "flow, rate (READ_ONLY),",
        "rate (READ_ONLY), flow,",
        "menu main\n  ITEMS, another order\n",
    ),
    (
        "IF (mode == 2) { reset }",
        "IF (mode == 1) { reset }",
        "menu main\n  ITEMS reset where mode == 2 -> reset where mode == 1, may differ\n",
    ),
    (
        "second, rate;",
        "third, rate;",
        "collection all\n  MEMBERS gone: {second rate}\n  MEMBERS new: {third rate}\n",
    ),
    (
        "5, mode;",
        "5, rate;",
        "array channels\n! ELEMENTS {5 mode} -> {5 rate}\n",
    ),
    (
        "DELAY(5, \"Wait\"); flow = channels[1] + 7;",
        "DELAY(6, \"Stay\"); flow = channels[1] + 7;",
        "method reset\n  DEFINITION 5 -> 6\n  DEFINITION en \"Wait\" -> \"Stay\"\n",
    ),
    ("+ 7", "- 7", "method reset\n  DEFINITION, other code\n"),
    (
        "METHOD reset",
        "METHOD begin { LABEL \"Begin\"; DEFINITION { } } METHOD reset",
        "method begin\n  item new: 0\nmethod reset to stop\n! number 0 to 1 -> 1 to 2\n",
    ),
    (
        "METHOD stop { LABEL \"Stop\"; DEFINITION { send_command(2); } }\n",
        "",
        "method stop\n! item gone: 1\n",
    ),
];

fn image(source: &str) -> Vec<u8> {
    let compiled = compile(Global, source.as_bytes());
    compiled.expect("a description").into_real()
}

/// The image of the source with an edit.
fn edited((from, to, _): &(&str, &str, &str)) -> Vec<u8> {
    assert!(SOURCE.contains(from), "{from}");
    image(&SOURCE.replacen(from, to, 1))
}

/// Calls with what differs between two images.
fn with_differences(old: &[u8], new: &[u8], check: impl FnOnce(&Differences<'_>)) {
    let old = load(Global, old).expect("an image");
    let new = load(Global, new).expect("an image");
    check(&Differences::between(&old, &new));
}

/// What is said of a difference when old and new change their places, but for the names that
/// begin and end a run.
fn mirrored<'i>(difference: &Difference<'i>) -> Difference<'i> {
    let change = match difference.change.clone() {
        Change::New(value) => Change::Gone(value),
        Change::Gone(value) => Change::New(value),
        Change::Replaced { old, new } => Change::Replaced { old: new, new: old },
        Change::Unshown => Change::Unshown,
    };
    let note = difference.note.map(|note| match note {
        Note::Narrower => Note::Wider,
        Note::Wider => Note::Narrower,
        other => other,
    });
    Difference {
        change,
        note,
        ..difference.clone()
    }
}

/// Texts of differences that do not depend on their order.
fn sorted<'i>(differences: impl Iterator<Item = Difference<'i>>) -> Vec<String> {
    let mut texts: Vec<_> = differences.map(|it| format!("{it:?}")).collect();
    texts.sort();
    texts
}

#[test]
fn each_edit_has_its_lines() {
    let before = image(SOURCE);
    for edit in EDITS {
        with_differences(&before, &edited(edit), |differences| {
            let lines = differences.to_string();
            let (lines, last) = lines.trim_end().rsplit_once('\n').unwrap_or(("", &lines));
            assert_eq!(lines.trim_end(), edit.2.trim_end());
            let breaking = edit.2.lines().filter(|line| line.starts_with('!')).count();
            let count = edit
                .2
                .lines()
                .filter(|line| line.starts_with(['!', ' ']))
                .count();
            let wanted = format!("differences {count}, breaking {breaking}");
            assert_eq!(last.trim_end(), wanted);
        });
    }
}

#[test]
fn an_image_differs_in_nothing_from_itself() {
    for edit in EDITS {
        let image = edited(edit);
        with_differences(&image, &image, |differences| {
            assert_eq!(differences.all(), []);
            assert_eq!(differences.to_string(), "differences 0, breaking 0\n");
            assert_eq!(differences.to_json_lines().expect("objects"), "");
        });
    }
}

#[test]
fn what_is_new_one_way_is_gone_the_other_way() {
    let images: Vec<_> = EDITS.iter().map(edited).collect();
    for (old, new) in images
        .iter()
        .flat_map(|old| images.iter().map(move |new| (old, new)))
    {
        with_differences(old, new, |there| {
            with_differences(new, old, |back| {
                let there = sorted(there.all().iter().cloned());
                let back = sorted(back.all().iter().map(mirrored));
                assert_eq!(there, back);
            });
        });
    }
}

#[test]
fn objects_say_what_lines_say() {
    let edit = EDITS
        .iter()
        .find(|edit| edit.1 == "{ 200; }")
        .expect("an edit");
    with_differences(&image(SOURCE), &edited(edit), |differences| {
        let object = concat!(
            r#"{"kind":"variable","name":"flow","last_name":null,"what":"MAX_VALUE","#,
            r#""transaction":null,"language":null,"condition":"mode == 1","old":"100","new":"200","#,
            r#""note":"wider","breaking":false}"#,
            "\n"
        );
        assert_eq!(differences.to_json_lines().expect("objects"), object);
    });
}
