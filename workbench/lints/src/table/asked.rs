//! Lints on what is right as often as not, and off unless denied.

use super::Row;
use crate::levels::Level;
use crate::lint::Lint;

pub(super) const ROWS: &[Row] = &[
    Row {
        lint: Lint::LiteralCondition,
        name: "literal-condition",
        level: Level::Allow,
        summary: "a condition that is a plain number, as IF (1)",
        details: "an IF, SELECT, `if` or `switch` over a plain number. It is a habit to leave a branch out so, and a description that is shipped should have none.",
        example: "METHOD m { DEFINITION { if (0) save_values(); } }",
        counterexample: "METHOD m { DEFINITION { while (1) { if (send_command(1)) break; } } }",
        notes: "`while (1)` has no warning.",
    },
    Row {
        lint: Lint::UndeclaredCommand,
        name: "undeclared-command",
        level: Level::Allow,
        summary: "a command up to 127 that the description does not have",
        details: "a constant number of a command from 0 to 127 that no command of the description has.",
        example: "COMMAND c { NUMBER 130; OPERATION READ; TRANSACTION { } }
METHOD m { DEFINITION { send_command(3); } }",
        counterexample: "COMMAND c { NUMBER 130; OPERATION READ; TRANSACTION { } }
METHOD m { DEFINITION { send_command(130); } }",
        notes: "`send_command(130)` has no warning.",
    },
    Row {
        lint: Lint::UnreachedMethod,
        name: "unreached-method",
        level: Level::Allow,
        summary: "a method that no menu leads to",
        details: "a method whose name is nowhere else, where a menu has entries. Hosts may list all methods.",
        example: r#"MENU a { ITEMS { "x" } }
METHOD m { DEFINITION { } }"#,
        counterexample: "MENU a { ITEMS { m } }
METHOD m { DEFINITION { } }",
        notes: "With `ITEMS { m }` there is no warning.",
    },
    Row {
        lint: Lint::UnreachedMenu,
        name: "unreached-menu",
        level: Level::Allow,
        summary: "a menu besides the first that no other menu leads to",
        details: "a menu after the first one whose name is nowhere else. A description may have a menu for each sort of host.",
        example: r#"MENU a { ITEMS { "x" } }
MENU b { ITEMS { "x" } }"#,
        counterexample: r#"MENU a { ITEMS { b } }
MENU b { ITEMS { "x" } }"#,
        notes: "With `ITEMS { b }` in the first one there is no warning.",
    },
    Row {
        lint: Lint::TrapAfterAbortMethod,
        name: "trap-after-abort-method",
        level: Level::Allow,
        summary: "what can trap after an add_abort_method: a trap runs no abort methods",
        details: "after an add_abort_method, a division or a shift by what is no constant, or an index that is none: where it traps, no abort method is run. A test before it may see to that it never does.",
        example: "VARIABLE a { TYPE INTEGER; }
METHOD m { DEFINITION { add_abort_method(n); a = 100 / a; } }
METHOD n { DEFINITION { } }",
        counterexample: "VARIABLE a { TYPE INTEGER; }
METHOD m { DEFINITION { add_abort_method(n); a = a / 100; } }
METHOD n { DEFINITION { } }",
        notes: "`a / 100` has no warning.",
    },
    Row {
        lint: Lint::SingleEnumerator,
        name: "single-enumerator",
        level: Level::Allow,
        summary: "an ENUMERATED with one enumerator",
        details: "an ENUMERATED with one enumerator: there is nothing to choose. A later revision may have more.",
        example: r#"VARIABLE a { TYPE ENUMERATED { { 0, "off" } } }"#,
        counterexample: r#"VARIABLE a { TYPE ENUMERATED { { 0, "off" } { 1, "on" } } }"#,
        notes: "",
    },
    Row {
        lint: Lint::CircularHandling,
        name: "circular-handling",
        level: Level::Allow,
        summary: "a HANDLING that depends on the variable itself",
        details: "a HANDLING that reads its own variable, or one whose HANDLING leads back to it. A lock may be meant so.",
        example: "VARIABLE a { HANDLING IF (a) { READ; } ELSE { READ & WRITE; } TYPE INTEGER; }",
        counterexample:
            "VARIABLE a { HANDLING IF (b) { READ; } ELSE { READ & WRITE; } TYPE INTEGER; }
VARIABLE b { TYPE INTEGER; }",
        notes: "",
    },
    Row {
        lint: Lint::UnorderedResponseCodes,
        name: "unordered-response-codes",
        level: Level::Allow,
        summary: "response codes that are not in their order",
        details: "a response code that is smaller than the one before it.",
        example: r#"COMMAND c { NUMBER 1; OPERATION READ; TRANSACTION { } RESPONSE_CODES { 16, MODE_ERROR, "Locked"; 0, SUCCESS, "OK" } }"#,
        counterexample: r#"COMMAND c { NUMBER 1; OPERATION READ; TRANSACTION { } RESPONSE_CODES { 0, SUCCESS, "OK"; 16, MODE_ERROR, "Locked" } }"#,
        notes: "",
    },
    Row {
        lint: Lint::IneffectiveVariable,
        name: "ineffective-variable",
        level: Level::Allow,
        summary: "a variable that can be entered, and that nothing sends or reads",
        details: "a variable that a menu offers, that no message of a command carries and that no expression reads, where there are commands that write: what is entered has no effect. One of CLASS LOCAL is the host's, and with another HANDLING than READ & WRITE or WRITE nothing can be entered.",
        example: "VARIABLE a { TYPE INTEGER; }
VARIABLE v { TYPE INTEGER; }
COMMAND c { NUMBER 1; OPERATION WRITE; TRANSACTION { REQUEST { a } } }
MENU m { ITEMS { a, v } }",
        counterexample: "VARIABLE a { TYPE INTEGER; }
VARIABLE v { TYPE INTEGER; }
COMMAND c { NUMBER 1; OPERATION WRITE; TRANSACTION { REQUEST { a, v } } }
MENU m { ITEMS { a, v } }",
        notes: "",
    },
];
