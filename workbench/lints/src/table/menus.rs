//! Lints on menus, classes and uses of items.

use super::Row;
use crate::levels::Level;
use crate::lint::Lint;

pub(super) const ROWS: &[Row] = &[
    Row {
        lint: Lint::CyclicMenu,
        name: "cyclic-menu",
        level: Level::Warn,
        summary: "a menu that contains itself",
        details: "a menu that contains itself, by whatever way through other menus, also under conditions. Of a circle of menus one is named, and beside it the one whose entry closes the circle.",
        example: "MENU a { ITEMS { b } }
MENU b { ITEMS { a } }",
        counterexample: r#"MENU a { ITEMS { b } }
MENU b { ITEMS { "x" } }"#,
        notes: "",
    },
    Row {
        lint: Lint::EmptyMenu,
        name: "empty-menu",
        level: Level::Warn,
        summary: "a menu that is shown and has no entries",
        details: "a menu without entries that has a LABEL, or that is itself an entry. Another one may be there for later, and has no warning.",
        example: r#"MENU a { LABEL "Service"; ITEMS { } }"#,
        counterexample: "MENU a { ITEMS { } }",
        notes: "`MENU a { ITEMS { } }` alone has no warning.",
    },
    Row {
        lint: Lint::RepeatedEntry,
        name: "repeated-entry",
        level: Level::Warn,
        summary: "an entry that is twice in one list of a menu",
        details: "an item that is twice in one list of a menu with the same qualifiers. Texts, as lines between entries, may come again, and so may an entry under another condition. Branches of the same condition are one list.",
        example: r#"VARIABLE a { LABEL "Level"; TYPE INTEGER; }
MENU m { ITEMS { a, a } }"#,
        counterexample: r#"VARIABLE a { LABEL "Level"; TYPE INTEGER; }
MENU m { ITEMS { a, a (READ_ONLY) } }"#,
        notes: "`a, a (READ_ONLY)` has no warning.",
    },
    Row {
        lint: Lint::MissingLabel,
        name: "missing-label",
        level: Level::Warn,
        summary: "a variable, a method or a collection without LABEL that a menu shows",
        details: "a variable, a method or a collection without LABEL that is an entry of a menu with one, and is not HIDDEN there: it is shown by its name. A label that a collection gives it as its member will do.",
        example: r#"VARIABLE level_2 { TYPE INTEGER; }
MENU m { LABEL "Main"; ITEMS { level_2 } }"#,
        counterexample: r#"VARIABLE level_2 { TYPE INTEGER; }
MENU m { LABEL "Main"; ITEMS { level_2 (HIDDEN) } }"#,
        notes: "`level_2 (HIDDEN)` has no warning.",
    },
    Row {
        lint: Lint::UnknownClass,
        name: "unknown-class",
        level: Level::Warn,
        summary: "a word of CLASS that is none of EDDL's",
        details: "a word of CLASS that is none of EDDL's: ALARM, ANALOG_INPUT, ANALOG_OUTPUT, COMPUTATION, CONSTANT, CONTAINED, CORRECTION, DEVICE, DIAGNOSTIC, DIGITAL_INPUT, DIGITAL_OUTPUT, DISCRETE, DISCRETE_INPUT, DISCRETE_OUTPUT, DYNAMIC, FACTORY, FREQUENCY_INPUT, FREQUENCY_OUTPUT, HART, INPUT, LOCAL, LOCAL_DISPLAY, MAINTENANCE, OPERATE, OPTIONAL, OUTPUT, SERVICE, SPECIALIST, TEMPORARY, TUNE, USER_INTERFACE. The image keeps any word, and a host knows only these. One that differs in one or two letters is named in the message.",
        example: "VARIABLE a { CLASS DYNMIC; TYPE INTEGER; }",
        counterexample: "VARIABLE a { CLASS DYNAMIC; TYPE INTEGER; }",
        notes: "",
    },
    Row {
        lint: Lint::UnusedItem,
        name: "unused-item",
        level: Level::Warn,
        summary: "a variable, a collection or an array that nothing refers to",
        details: "a variable, a collection or an array whose name is nowhere but at its declaration. A host finds menus, commands and methods by itself. A name that is used elsewhere for something else, as for a local or a member, counts as a use, and so does an item's own use of itself. In a description of variables alone there is no warning.",
        example: "VARIABLE a { TYPE INTEGER; }
MENU m { ITEMS { } }",
        counterexample: "VARIABLE a { TYPE INTEGER; }
MENU m { ITEMS { a } }",
        notes: "",
    },
    Row {
        lint: Lint::RepeatedLabel,
        name: "repeated-label",
        level: Level::Warn,
        summary: "two variables of one list with the same LABEL",
        details: "two variables that are in one list of a menu with the same LABEL: a technician can't tell them apart.",
        example: r#"VARIABLE a { LABEL "Level"; TYPE INTEGER; }
VARIABLE b { LABEL "Level"; TYPE INTEGER; }
MENU m { ITEMS { a, b } }"#,
        counterexample: r#"VARIABLE a { LABEL "Level"; TYPE INTEGER; }
VARIABLE b { LABEL "Limit"; TYPE INTEGER; }
MENU m { ITEMS { a, b } }"#,
        notes: "A method may be called as what it sets, and a member of a collection may have a label of its own.",
    },
    Row {
        lint: Lint::QuotedItem,
        name: "quoted-item",
        level: Level::Warn,
        summary: "a text of a menu that is the name of an item",
        details: "an entry of a menu that is a text, and the name of an item without capitals: the item itself is meant.",
        example: r#"VARIABLE a { TYPE INTEGER; }
MENU m { ITEMS { "a" } }
COMMAND c { NUMBER 1; OPERATION READ; TRANSACTION { REPLY { a } } }"#,
        counterexample: r#"VARIABLE a { TYPE INTEGER; }
MENU m { ITEMS { "A" } }
COMMAND c { NUMBER 1; OPERATION READ; TRANSACTION { REPLY { a } } }"#,
        notes: "",
    },
    Row {
        lint: Lint::HiddenMenu,
        name: "hidden-menu",
        level: Level::Warn,
        summary: "a menu with a LABEL that hides all of its entries",
        details: "a menu with a LABEL all of whose entries are HIDDEN.",
        example: r#"VARIABLE a { LABEL "Level"; TYPE INTEGER; }
MENU m { LABEL "Main"; ITEMS { a (HIDDEN) } }"#,
        counterexample: r#"VARIABLE a { LABEL "Level"; TYPE INTEGER; }
MENU m { LABEL "Main"; ITEMS { a } }"#,
        notes: "",
    },
    Row {
        lint: Lint::InvalidEntry,
        name: "invalid-entry",
        level: Level::Warn,
        summary: "an entry under a condition under which the item is not valid",
        details: "an entry of a menu under conditions under which the VALIDITY of the item is always FALSE, or whose VALIDITY is FALSE under all: it is never shown.",
        example: r#"VARIABLE e { TYPE ENUMERATED { { 0, "off" } { 1, "on" } { 3, "hold" } } }
VARIABLE v { VALIDITY IF (e == 1) { TRUE; } ELSE { FALSE; } TYPE INTEGER; }
MENU m { ITEMS { IF (e == 0) { v } } }"#,
        counterexample: r#"VARIABLE e { TYPE ENUMERATED { { 0, "off" } { 1, "on" } { 3, "hold" } } }
VARIABLE v { VALIDITY IF (e == 1) { TRUE; } ELSE { FALSE; } TYPE INTEGER; }
MENU m { ITEMS { IF (e == 1) { v } } }"#,
        notes: "",
    },
    Row {
        lint: Lint::MisplacedQualifier,
        name: "misplaced-qualifier",
        level: Level::Warn,
        summary: "a qualifier of an entry that does nothing for its item",
        details: "DISPLAY_VALUE, READ_ONLY or REVIEW of a method, and DISPLAY_VALUE of a menu.",
        example: "MENU a { ITEMS { m (REVIEW) } }
METHOD m { DEFINITION { save_values(); } }",
        counterexample: r#"MENU a { ITEMS { b (REVIEW) } }
MENU b { ITEMS { "x" } }"#,
        notes: "",
    },
    Row {
        lint: Lint::RepeatedQualifier,
        name: "repeated-qualifier",
        level: Level::Warn,
        summary: "a qualifier that an entry has twice",
        details: "a qualifier that an entry of a menu has twice: another one is meant.",
        example: r#"VARIABLE a { LABEL "Level"; TYPE INTEGER; }
MENU m { ITEMS { a (READ_ONLY READ_ONLY) } }"#,
        counterexample: r#"VARIABLE a { LABEL "Level"; TYPE INTEGER; }
MENU m { ITEMS { a (READ_ONLY DISPLAY_VALUE) } }"#,
        notes: "",
    },
    Row {
        lint: Lint::HiddenQualifier,
        name: "hidden-qualifier",
        level: Level::Warn,
        summary: "DISPLAY_VALUE beside HIDDEN",
        details: "DISPLAY_VALUE of an entry that is HIDDEN as well.",
        example: r#"VARIABLE a { LABEL "Level"; TYPE INTEGER; }
MENU m { ITEMS { a (HIDDEN DISPLAY_VALUE) } }"#,
        counterexample: r#"VARIABLE a { LABEL "Level"; TYPE INTEGER; }
MENU m { ITEMS { a (DISPLAY_VALUE) } }"#,
        notes: "",
    },
    Row {
        lint: Lint::RepeatedMember,
        name: "repeated-member",
        level: Level::Warn,
        summary: "an item that is twice in one collection or array",
        details: "two members of a collection, or two elements of an array, that are the same item and have no labels of their own: one of them is meant to be another.",
        example: "VARIABLE a { TYPE INTEGER; }
COLLECTION OF VARIABLE c { MEMBERS { x, a; y, a; } }
MENU m { ITEMS { c } }",
        counterexample: "VARIABLE a { TYPE INTEGER; }
VARIABLE b { TYPE INTEGER; }
COLLECTION OF VARIABLE c { MEMBERS { x, a; y, b; } }
MENU m { ITEMS { c } }",
        notes: "",
    },
    Row {
        lint: Lint::EmptyList,
        name: "empty-list",
        level: Level::Warn,
        summary: "a collection without members, or an array without elements",
        details: "a collection without members, or an array without elements: no index of it has a value.",
        example: "COLLECTION OF VARIABLE c { MEMBERS { } }
MENU m { ITEMS { c } }",
        counterexample: "VARIABLE a { TYPE INTEGER; }
COLLECTION OF VARIABLE c { MEMBERS { x, a; } }
MENU m { ITEMS { c } }",
        notes: "",
    },
    Row {
        lint: Lint::EmptyMethod,
        name: "empty-method",
        level: Level::Warn,
        summary: "a method with a LABEL that does nothing",
        details: "a method with a LABEL and without any statement or comment: a technician calls it, and nothing is done. So it is of an add_abort_method of a method that begins with an abort.",
        example: r#"METHOD m { LABEL "Reset"; DEFINITION { } }"#,
        counterexample: r#"METHOD m { LABEL "Reset"; DEFINITION { /* not yet */ } }"#,
        notes: "",
    },
    Row {
        lint: Lint::UnreadableValue,
        name: "unreadable-value",
        level: Level::Warn,
        summary: "a value that is shown or read though its HANDLING is WRITE",
        details: "an entry with DISPLAY_VALUE or READ_ONLY of a variable with HANDLING WRITE, under no condition, and such a variable in the REPLY of a READ command: nobody may read it.",
        example: r#"VARIABLE a { LABEL "Key"; HANDLING WRITE; TYPE INTEGER; }
MENU m { ITEMS { a (DISPLAY_VALUE) } }"#,
        counterexample: r#"VARIABLE a { LABEL "Key"; HANDLING WRITE; TYPE INTEGER; }
MENU m { ITEMS { a } }"#,
        notes: "",
    },
    Row {
        lint: Lint::LeftOverName,
        name: "left-over-name",
        level: Level::Warn,
        summary: "a name or a number that is left over from the item that was copied",
        details: "in an item with a number at the end of its name, as `alarm_2`, the name of another item with the number of a sibling, as `input_1`, where there is one with its own and the siblings name theirs; and a LABEL with the number of a sibling, which has the same LABEL.",
        example: "VARIABLE input_1 { TYPE INTEGER; }
VARIABLE input_2 { TYPE INTEGER; }
VARIABLE input_3 { TYPE INTEGER; }
VARIABLE alarm_1 { TYPE INTEGER { MAX_VALUE input_1; } }
VARIABLE alarm_2 { TYPE INTEGER { MAX_VALUE input_1; } }
VARIABLE alarm_3 { TYPE INTEGER { MAX_VALUE input_3; } }
MENU m { ITEMS { input_2, alarm_1, alarm_2, alarm_3 } }",
        counterexample: "VARIABLE input_1 { TYPE INTEGER; }
VARIABLE input_2 { TYPE INTEGER; }
VARIABLE input_3 { TYPE INTEGER; }
VARIABLE alarm_1 { TYPE INTEGER { MAX_VALUE input_1; } }
VARIABLE alarm_2 { TYPE INTEGER { MAX_VALUE input_2; } }
VARIABLE alarm_3 { TYPE INTEGER { MAX_VALUE input_3; } }
MENU m { ITEMS { input_2, alarm_1, alarm_2, alarm_3 } }",
        notes: "",
    },
];
