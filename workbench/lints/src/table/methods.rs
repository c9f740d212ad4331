//! Lints on statements, calls and values in methods.

use super::Row;
use crate::levels::Level;
use crate::lint::Lint;

pub(super) const ROWS: &[Row] = &[
    Row {
        lint: Lint::DroppedComparison,
        name: "dropped-comparison",
        level: Level::Warn,
        summary: "a statement that is a comparison: = is meant",
        details: "a statement that is a comparison, or the first or the third part of a `for` that is one. `=` is meant in place of `==`.",
        example: "METHOD m { DEFINITION { int i; i == 5; } }",
        counterexample: "METHOD m { DEFINITION { int i; i = 5; } }",
        notes: "",
    },
    Row {
        lint: Lint::DroppedValue,
        name: "dropped-value",
        level: Level::Warn,
        summary: "a statement that computes a value and does nothing with it",
        details: "a statement that computes a value, sets nothing and asks for nothing; and one whose operator gives what nothing uses, as `!send_command(1);`. A plain number, as a macro may leave it, has no warning.",
        example: "METHOD m { DEFINITION { int i; i = 2; i + 1; } }",
        counterexample: "METHOD m { DEFINITION { int i; i = 2; i++; } }",
        notes: "`i++;` has no warning.",
    },
    Row {
        lint: Lint::AssignedCondition,
        name: "assigned-condition",
        level: Level::Warn,
        summary: "an assignment as a condition: == is meant, or a second pair of parentheses",
        details: "an assignment as the condition of an `if`, `switch` or loop. In a second pair of parentheses it says so on purpose and has no warning; but as an operand of `&&` or `||` the assignment of a constant has one.",
        example: "METHOD m { DEFINITION { int i; if (i = 5) save_values(); } }",
        counterexample: "METHOD m { DEFINITION { int i; if ((i = 5)) save_values(); } }",
        notes: "",
    },
    Row {
        lint: Lint::AssignedToItself,
        name: "assigned-to-itself",
        level: Level::Warn,
        summary: "a variable or a local that is set to itself",
        details: "a variable or a local that is set to itself, by `=`, iassign or lassign, also by way of ivar_value or lvar_value. So it is of `b = a;` where nothing has changed since `a = b;`, and of an `if` by `==` that begins by setting the same.",
        example: "METHOD m { DEFINITION { int i; i = i; } }",
        counterexample: "METHOD m { DEFINITION { int i; i = i + 1; } }",
        notes: "",
    },
    Row {
        lint: Lint::EmptyBranch,
        name: "empty-branch",
        level: Level::Warn,
        summary: "an if that does nothing, or a ; between a loop and its block",
        details: "a `;` right after the condition of an `if` without `else`: the statement after it is executed in any case. So it is of a block that comes after a `;` behind a loop or an `else`, of `if (..) { }` without `else`, comment and request, and of a `for` without a body that counts to a constant. Other loops may have no body, as `while (send_command(1));`.",
        example: "VARIABLE e { TYPE INTEGER; }
METHOD m { DEFINITION { if (e == 5); e = 6; } }",
        counterexample: "VARIABLE e { TYPE INTEGER; }
METHOD m { DEFINITION { if (e == 5) e = 6; } }",
        notes: "",
    },
    Row {
        lint: Lint::StoreOutOfRange,
        name: "store-out-of-range",
        level: Level::Warn,
        summary: "a constant that is assigned to a variable which can't hold it",
        details: "a constant that is assigned to a variable, by `=`, iassign or lassign, and that its type and size can't hold: the variable keeps another number. The same is said of a local that has this value there. `v = ~0;` means all bits that it has, and so does -1 in four octets: they have no warning.",
        example: "VARIABLE v { TYPE UNSIGNED_INTEGER; }
METHOD m { DEFINITION { v = 256; } }",
        counterexample: "VARIABLE v { TYPE UNSIGNED_INTEGER; }
METHOD m { DEFINITION { v = 255; } }",
        notes: "",
    },
    Row {
        lint: Lint::WrappedNumber,
        name: "wrapped-number",
        level: Level::Warn,
        summary: "a number of a method that does not fit in 32 bits with a sign",
        details: "a number over 2147483647, written with decimal digits, that a method assigns to a local or compares by order: with 32 bits it is negative. What is written with `0x` is meant as bits.",
        example: "METHOD m { DEFINITION { int i = 3000000000; send_command(i); } }",
        counterexample: "METHOD m { DEFINITION { int i = 0xF0000000; send_command(i); } }",
        notes: "`0xF0000000` has no warning, and neither has `v = 3000000000;` of an unsigned variable of four octets.",
    },
    Row {
        lint: Lint::MissingCommand,
        name: "missing-command",
        level: Level::Warn,
        summary: "a command over 127, or below 0, that the description does not have",
        details: "a constant number of a command that is over 127 or negative, in a description with commands of which none has it. Numbers up to 127 may be those that every device of the protocol has ([`undeclared-command`](#off-unless-denied) asks for them), unless a command has the number of the transaction, and a transaction that of the command: both are exchanged.",
        example: "COMMAND c { NUMBER 130; OPERATION READ; TRANSACTION { } }
METHOD m { DEFINITION { send_command(131); } }",
        counterexample: "COMMAND c { NUMBER 130; OPERATION READ; TRANSACTION { } }
METHOD m { DEFINITION { send_command(130); } }",
        notes: "`send_command(130)` and `send_command(3)` have no warning.",
    },
    Row {
        lint: Lint::MissingTransaction,
        name: "missing-transaction",
        level: Level::Warn,
        summary: "a transaction that the command does not have",
        details: "a `send_command_trans` with two constants of which the first is the NUMBER of a command of the description, and the second is none of its transactions: those without a number may count by their order. Of a command that is not declared it says nothing.",
        example: "COMMAND c { NUMBER 3; OPERATION READ; TRANSACTION 0 { REQUEST { } REPLY { } } }
METHOD m { DEFINITION { send_command_trans(3, 1); } }",
        counterexample:
            "COMMAND c { NUMBER 3; OPERATION READ; TRANSACTION 0 { REQUEST { } REPLY { } } }
METHOD m { DEFINITION { send_command_trans(3, 0); } }",
        notes: "",
    },
    Row {
        lint: Lint::UnwritableVariable,
        name: "unwritable-variable",
        level: Level::Warn,
        summary: "a value that is asked for, of a variable with HANDLING READ",
        details: "a GET_DEV_VAR_VALUE of a variable with HANDLING READ, under no condition: the technician may not enter it.",
        example: r#"VARIABLE a { HANDLING READ; TYPE INTEGER; }
METHOD m { DEFINITION { GET_DEV_VAR_VALUE("Level?", a); } }"#,
        counterexample: r#"VARIABLE a { HANDLING READ & WRITE; TYPE INTEGER; }
METHOD m { DEFINITION { GET_DEV_VAR_VALUE("Level?", a); } }"#,
        notes: "With `HANDLING READ & WRITE`, and without HANDLING, there is no warning.",
    },
    Row {
        lint: Lint::ReversedAssignment,
        name: "reversed-assignment",
        level: Level::Warn,
        summary: "=+, =- or =! in place of +=, -= or !=",
        details: "`=` with `+`, `-` or `!` right behind it and a blank after that: two signs that look like one.",
        example: "METHOD m { DEFINITION { int i = 5; i =+ 1; send_command(i); } }",
        counterexample: "METHOD m { DEFINITION { int i = 5; i = +1; send_command(i); } }",
        notes: "`i =-1` has no warning.",
    },
    Row {
        lint: Lint::SteppedAssignment,
        name: "stepped-assignment",
        level: Level::Warn,
        summary: "a place that is set to what it counts, as in i = i++",
        details: "an assignment of `i++` or `i--`, before or behind, to the place itself.",
        example: "METHOD m { DEFINITION { int i = 0; i = i++; send_command(i); } }",
        counterexample: "METHOD m { DEFINITION { int i = 0; i++; send_command(i); } }",
        notes: "",
    },
    Row {
        lint: Lint::StoredAnswer,
        name: "stored-answer",
        level: Level::Warn,
        summary: "the code of GET_DEV_VAR_VALUE in the place of what was entered",
        details: "an assignment to a variable of the code with which a GET_DEV_VAR_VALUE of it was answered: it replaces what was entered. So it is of another variable that is not of CLASS LOCAL, and of an order of the code to a number other than 0, as in `GET_DEV_VAR_VALUE(\"Limit?\", a) > 100`.",
        example: r#"VARIABLE a { TYPE INTEGER; }
METHOD m { DEFINITION { a = GET_DEV_VAR_VALUE("Limit?", a); } }"#,
        counterexample: r#"VARIABLE a { TYPE INTEGER; }
METHOD m { DEFINITION { int code; code = GET_DEV_VAR_VALUE("Limit?", a); if (code) abort(); } }"#,
        notes: "",
    },
    Row {
        lint: Lint::DroppedChoice,
        name: "dropped-choice",
        level: Level::Warn,
        summary: "a SELECT_FROM_LIST whose answer is not used",
        details: "a SELECT_FROM_LIST as a statement: what was chosen makes no difference.",
        example: r#"METHOD m { DEFINITION { SELECT_FROM_LIST("Go?", "Yes;No"); } }"#,
        counterexample: r#"METHOD m { DEFINITION { if (SELECT_FROM_LIST("Go?", "Yes;No")) abort(); } }"#,
        notes: "",
    },
    Row {
        lint: Lint::MissingChoice,
        name: "missing-choice",
        level: Level::Warn,
        summary: "a choice that the list of a SELECT_FROM_LIST does not have",
        details: "what a SELECT_FROM_LIST, or a local that keeps answers of such alone, is compared with by `==`, `!=`, `>=` or `>`, or a label of a `switch` over it, that is no choice: they are counted from 0. What is joined by `&&` or `||` may test a range, and has none for an order. So it is of an order that each choice has to the number.",
        example: r#"METHOD m { DEFINITION { if (SELECT_FROM_LIST("Go?", "Yes;No") == 2) abort(); } }"#,
        counterexample: r#"METHOD m { DEFINITION { if (SELECT_FROM_LIST("Go?", "Yes;No") == 1) abort(); } }"#,
        notes: "",
    },
    Row {
        lint: Lint::NegativeDelay,
        name: "negative-delay",
        level: Level::Warn,
        summary: "a DELAY of less than no time",
        details: "a constant time of a DELAY that is negative.",
        example: r#"METHOD m { DEFINITION { DELAY(-1, "Wait"); } }"#,
        counterexample: r#"METHOD m { DEFINITION { DELAY(1, "Wait"); } }"#,
        notes: "",
    },
    Row {
        lint: Lint::LongDelay,
        name: "long-delay",
        level: Level::Warn,
        summary: "a DELAY of a thousand seconds or more",
        details: "a constant time of a DELAY from 1000 on: milliseconds are meant.",
        example: r#"METHOD m { DEFINITION { DELAY(5000, "Wait"); } }"#,
        counterexample: r#"METHOD m { DEFINITION { DELAY(5, "Wait"); } }"#,
        notes: "",
    },
    Row {
        lint: Lint::UnlistedResponseCode,
        name: "unlisted-response-code",
        level: Level::Warn,
        summary: "a code that the command does not list",
        details: "a constant from 1 to 127 with which the answer of a command is compared by `==` or `!=`, or a local that keeps such answers alone, and that is none of the response codes which the command lists.",
        example: r#"COMMAND c { NUMBER 1; OPERATION READ; TRANSACTION { } RESPONSE_CODES { 0, SUCCESS, "OK"; 16, MODE_ERROR, "Locked" } }
METHOD m { DEFINITION { if (send_command(1) == 5) abort(); } }"#,
        counterexample: r#"COMMAND c { NUMBER 1; OPERATION READ; TRANSACTION { } RESPONSE_CODES { 0, SUCCESS, "OK"; 16, MODE_ERROR, "Locked" } }
METHOD m { DEFINITION { if (send_command(1) == 16) abort(); } }"#,
        notes: "",
    },
    Row {
        lint: Lint::ComparedArgument,
        name: "compared-argument",
        level: Level::Warn,
        summary: "a comparison as the number of a command or of a DELAY",
        details: "a comparison, `&&` or `||` as an argument of send_command, send_command_trans or DELAY: the parenthesis closes too late.",
        example: "METHOD m { DEFINITION { if (send_command(1 != 0)) abort(); } }",
        counterexample: "METHOD m { DEFINITION { if (send_command(1) != 0) abort(); } }",
        notes: "",
    },
    Row {
        lint: Lint::StoreOutsideLimits,
        name: "store-outside-limits",
        level: Level::Warn,
        summary: "a constant outside of the limits of the variable that it is assigned to",
        details: "a constant that is assigned to a variable, or a value of which so much is known at its place, and that is below its MIN_VALUE or over its MAX_VALUE, in all branches of these. 0 often says that there is none, and has no warning.",
        example: "VARIABLE a { TYPE INTEGER (2) { MAX_VALUE 100; } }
METHOD m { DEFINITION { a = 200; send_command(1); } }",
        counterexample: "VARIABLE a { TYPE INTEGER (2) { MAX_VALUE 100; } }
METHOD m { DEFINITION { a = 100; send_command(1); } }",
        notes: "",
    },
    Row {
        lint: Lint::DeadStore,
        name: "dead-store",
        level: Level::Warn,
        summary: "a value that is replaced before anything reads it",
        details: "a value that is stored by a statement, and replaced by one after it in the same block, with other assignments between at most, none of which reads it. So it is of what a technician has entered, also where another question asks for the same variable; of a value that both branches of an `if` replace; and of the code of a command that a local keeps, where that of another command replaces it.",
        example: "VARIABLE a { TYPE INTEGER; }
METHOD m { DEFINITION { a = 5; a = 6; send_command(1); } }",
        counterexample: "VARIABLE a { TYPE INTEGER; }
METHOD m { DEFINITION { a = 5; send_command(1); a = 6; send_command(1); } }",
        notes: "The value of a declaration is left alone, and so are 0 and that of any other request. A command that is sent again in the next statement may be a second try.",
    },
    Row {
        lint: Lint::EmptyThen,
        name: "empty-then",
        level: Level::Warn,
        summary: "an if that does something only after else",
        details: "a `;` or `{ }` without a comment between the condition of an `if` and its `else`: `!` says the same.",
        example: "VARIABLE a { TYPE INTEGER; }
METHOD m { DEFINITION { if (a) ; else send_command(1); } }",
        counterexample: "VARIABLE a { TYPE INTEGER; }
METHOD m { DEFINITION { if (!a) send_command(1); } }",
        notes: "",
    },
    Row {
        lint: Lint::EmptyElse,
        name: "empty-else",
        level: Level::Warn,
        summary: "an else with nothing but a ;",
        details: "an `else` with nothing but a `;`, and no comment before that.",
        example: "VARIABLE a { TYPE INTEGER; }
METHOD m { DEFINITION { if (a) send_command(1); else ; } }",
        counterexample: "VARIABLE a { TYPE INTEGER; }
METHOD m { DEFINITION { if (a) send_command(1); else /* nothing */ ; } }",
        notes: "",
    },
    Row {
        lint: Lint::EmptySwitch,
        name: "empty-switch",
        level: Level::Warn,
        summary: "a switch without statements",
        details: "a `switch` without statements and labels.",
        example: "VARIABLE a { TYPE INTEGER; }
METHOD m { DEFINITION { switch (a) { } } }",
        counterexample: "VARIABLE a { TYPE INTEGER; }
METHOD m { DEFINITION { switch (a) { case 1: send_command(1); } } }",
        notes: "",
    },
    Row {
        lint: Lint::MisleadingIndentation,
        name: "misleading-indentation",
        level: Level::Warn,
        summary: "a statement that looks like part of the one before it",
        details: "a statement that stands below what is in the `if`, `else`, `while` or `for` before it, or in the last statement of that, where none has braces: it is executed in any case.",
        example: "VARIABLE a { TYPE INTEGER; }
METHOD m { DEFINITION {
    if (a)
        send_command(1);
        send_command(2);
} }",
        counterexample: "VARIABLE a { TYPE INTEGER; }
METHOD m { DEFINITION {
    if (a)
        send_command(1);
    send_command(2);
} }",
        notes: "",
    },
    Row {
        lint: Lint::DanglingElse,
        name: "dangling-else",
        level: Level::Warn,
        summary: "an else below an if that it does not belong to",
        details: "an `else` that stands below an `if`, and belongs to an `if` in that one.",
        example: "VARIABLE a { TYPE INTEGER; }
METHOD m { DEFINITION {
    if (a > 5)
        if (a > 10) send_command(1);
    else send_command(2);
} }",
        counterexample: "VARIABLE a { TYPE INTEGER; }
METHOD m { DEFINITION {
    if (a > 5)
        if (a > 10) send_command(1);
        else send_command(2);
} }",
        notes: "",
    },
    Row {
        lint: Lint::LostValue,
        name: "lost-value",
        level: Level::Warn,
        summary: "a value that a reply replaces before a command has sent it",
        details: "what is entered for a variable or stored in it, where the next command that has to do with it sends something else and gets it in its REPLY.",
        example: r#"VARIABLE a { TYPE INTEGER; }
COMMAND c { NUMBER 130; OPERATION WRITE; TRANSACTION 0 { REQUEST { 0, a } REPLY { a } } TRANSACTION 1 { REQUEST { 1 } REPLY { a } } }
METHOD m { DEFINITION { GET_DEV_VAR_VALUE("Limit?", a); send_command_trans(130, 1); } }"#,
        counterexample: r#"VARIABLE a { TYPE INTEGER; }
COMMAND c { NUMBER 130; OPERATION WRITE; TRANSACTION 0 { REQUEST { 0, a } REPLY { a } } TRANSACTION 1 { REQUEST { 1 } REPLY { a } } }
METHOD m { DEFINITION { GET_DEV_VAR_VALUE("Limit?", a); send_command_trans(130, 0); } }"#,
        notes: "",
    },
    Row {
        lint: Lint::EarlySave,
        name: "early-save",
        level: Level::Warn,
        summary: "a save_values before the values are changed",
        details: "the last save_values of a body, behind which variables are set and nothing is sent or saved any more.",
        example: "VARIABLE a { TYPE INTEGER; }
METHOD m { DEFINITION { save_values(); a = 5; } }",
        counterexample: "VARIABLE a { TYPE INTEGER; }
METHOD m { DEFINITION { a = 5; save_values(); } }",
        notes: "",
    },
    Row {
        lint: Lint::LateCopy,
        name: "late-copy",
        level: Level::Warn,
        summary: "a copy of a variable that was just set to a constant, and is stored back",
        details: "a local that keeps a variable right after that was set to a constant, and is stored back in it: what the variable was before is lost.",
        example: "VARIABLE a { TYPE INTEGER; }
METHOD m { DEFINITION { int before; a = 3; before = a; send_command(1); a = before; send_command(1); } }",
        counterexample: "VARIABLE a { TYPE INTEGER; }
METHOD m { DEFINITION { int before; before = a; a = 3; send_command(1); a = before; send_command(1); } }",
        notes: "",
    },
    Row {
        lint: Lint::StoredElement,
        name: "stored-element",
        level: Level::Warn,
        summary: "an element that is kept where its number is meant, or a number where an element is",
        details: "an element of an array that is stored in what is an index of that array in the same method; and the index of an element that is stored in what the element was compared with.",
        example: "VARIABLE a { TYPE INTEGER; }
VARIABLE c { TYPE INTEGER; }
ARRAY OF VARIABLE r { ELEMENTS { 1, a; 2, c; } }
METHOD m { DEFINITION { int i, best = 1; for (i = 1; i <= 2; i++) if (r[i] > r[best]) best = r[i]; c = best; } }",
        counterexample: "VARIABLE a { TYPE INTEGER; }
VARIABLE c { TYPE INTEGER; }
ARRAY OF VARIABLE r { ELEMENTS { 1, a; 2, c; } }
METHOD m { DEFINITION { int i, best = 1; for (i = 1; i <= 2; i++) if (r[i] > r[best]) best = i; c = best; } }",
        notes: "",
    },
    Row {
        lint: Lint::OtherQuestion,
        name: "other-question",
        level: Level::Warn,
        summary: "a question for another variable than the one that it sets",
        details: "a GET_DEV_VAR_VALUE whose question has the LABEL of another variable, which can be entered as well, and no word of the LABEL or the name of its own.",
        example: r#"VARIABLE a { LABEL "Limit"; TYPE INTEGER; }
VARIABLE c { LABEL "Channel"; TYPE INTEGER; }
METHOD m { DEFINITION { GET_DEV_VAR_VALUE("Which channel?", a); send_command(c); } }"#,
        counterexample: r#"VARIABLE a { LABEL "Limit"; TYPE INTEGER; }
VARIABLE c { LABEL "Channel"; TYPE INTEGER; }
METHOD m { DEFINITION { GET_DEV_VAR_VALUE("Which channel?", c); send_command(a); } }"#,
        notes: "",
    },
    Row {
        lint: Lint::ExchangedBranches,
        name: "exchanged-branches",
        level: Level::Warn,
        summary: "what is said or done of a command where the opposite has come about",
        details: "an abort alone, or a message that something has failed, where the answer of a command is 0, and a message that it has succeeded where it is not: 0 is the code of what went well.",
        example: r#"METHOD m { DEFINITION { if (send_command(1)) PUT_MESSAGE("The limit is written"); else PUT_MESSAGE("The device has refused"); } }"#,
        counterexample: r#"METHOD m { DEFINITION { if (send_command(1) == 0) PUT_MESSAGE("The limit is written"); else PUT_MESSAGE("The device has refused"); } }"#,
        notes: "",
    },
    Row {
        lint: Lint::ComparedCopy,
        name: "compared-copy",
        level: Level::Warn,
        summary: "a comparison of a value with its copy",
        details: "an `if` that compares a variable or a local with what was copied from it by the statements right before: both are the same.",
        example: "VARIABLE a { TYPE INTEGER; }
METHOD m { DEFINITION { int old = a; if (a != old) send_command(1); } }",
        counterexample: "VARIABLE a { TYPE INTEGER; }
METHOD m { DEFINITION { int old = a; send_command(1); if (a != old) send_command(2); } }",
        notes: "",
    },
    Row {
        lint: Lint::OppositeState,
        name: "opposite-state",
        level: Level::Warn,
        summary: "a method whose name says the opposite of what it sets",
        details: "a method whose name or LABEL has a word such as `on`, `start` or `open`, and that sets a variable of enumerators to one alone whose text says the opposite, as `off`, `stop` or `closed`.",
        example: r#"VARIABLE a { TYPE ENUMERATED { { 0, "Off" } { 1, "On" } } }
METHOD switch_on { DEFINITION { a = 0; send_command(1); } }"#,
        counterexample: r#"VARIABLE a { TYPE ENUMERATED { { 0, "Off" } { 1, "On" } } }
METHOD switch_on { DEFINITION { a = 1; send_command(1); } }"#,
        notes: "",
    },
];
