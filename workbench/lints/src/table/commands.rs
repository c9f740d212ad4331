//! Lints on commands.

use super::Row;
use crate::levels::Level;
use crate::lint::Lint;

pub(super) const ROWS: &[Row] = &[
    Row {
        lint: Lint::RepeatedCommandNumber,
        name: "repeated-command-number",
        level: Level::Warn,
        summary: "two commands with one NUMBER",
        details: "two commands with one NUMBER. `send_command` and the device can't tell them apart.",
        example: "COMMAND c { NUMBER 1; OPERATION READ; TRANSACTION { } }
COMMAND d { NUMBER 1; OPERATION WRITE; TRANSACTION { } }",
        counterexample: "COMMAND c { NUMBER 1; OPERATION READ; TRANSACTION { } }
COMMAND d { NUMBER 2; OPERATION WRITE; TRANSACTION { } }",
        notes: "",
    },
    Row {
        lint: Lint::RepeatedResponseCode,
        name: "repeated-response-code",
        level: Level::Warn,
        summary: "two response codes of a command with one number",
        details: "two response codes of one command with one number.",
        example: r#"COMMAND c { NUMBER 1; OPERATION READ; TRANSACTION { } RESPONSE_CODES { 0, SUCCESS, "OK"; 8, MODE_ERROR, "Locked"; 8, MISC_ERROR, "Busy" } }"#,
        counterexample: r#"COMMAND c { NUMBER 1; OPERATION READ; TRANSACTION { } RESPONSE_CODES { 0, SUCCESS, "OK"; 8, MODE_ERROR, "Locked" } }"#,
        notes: "",
    },
    Row {
        lint: Lint::RepeatedTransactionNumber,
        name: "repeated-transaction-number",
        level: Level::Warn,
        summary: "two transactions of a command with one number",
        details: "two transactions of one command with one written number.",
        example: "COMMAND c { NUMBER 1; OPERATION READ; TRANSACTION 1 { } TRANSACTION 1 { } }",
        counterexample: "COMMAND c { NUMBER 1; OPERATION READ; TRANSACTION 0 { } TRANSACTION 1 { } }",
        notes: "",
    },
    Row {
        lint: Lint::RepeatedDataItem,
        name: "repeated-data-item",
        level: Level::Warn,
        summary: "a variable that is twice in a reply without masks",
        details: "a variable that is twice in one list of a REPLY, once at least without a mask, and not for INFO: the second value replaces the first.",
        example: "VARIABLE a { TYPE INTEGER; }
COMMAND c { NUMBER 1; OPERATION READ; TRANSACTION { REPLY { a, a } } }",
        counterexample: "VARIABLE a { TYPE INTEGER; }
COMMAND c { NUMBER 1; OPERATION READ; TRANSACTION { REPLY { a <0x0F>, a <0xF0> } } }",
        notes: "`a <0x0F>, a <0xF0>` has no warning, and neither have two branches of a condition, nor a REQUEST.",
    },
    Row {
        lint: Lint::OverlappingMasks,
        name: "overlapping-masks",
        level: Level::Warn,
        summary: "two masks of a variable in one message that have a bit in common",
        details: "two masks of one variable in one list that have a bit in common; and two that follow each other, of two variables, each of which has bits of the other one and bits that the other one has not: they neither share an octet nor fill one each.",
        example: "VARIABLE a { TYPE BIT_ENUMERATED; }
COMMAND c { NUMBER 1; OPERATION READ; TRANSACTION { REPLY { a <0x0F>, a <0x18> } } }",
        counterexample: "VARIABLE a { TYPE BIT_ENUMERATED; }
COMMAND c { NUMBER 1; OPERATION READ; TRANSACTION { REPLY { a <0x0F>, a <0x30> } } }",
        notes: "`a <0x0F>, a <0x30>` has no warning. Masks of two variables that are the same, or of which one has all bits of the other one, may be of two octets.",
    },
    Row {
        lint: Lint::WideMask,
        name: "wide-mask",
        level: Level::Warn,
        summary: "a mask with bits that its variable does not have",
        details: "a mask with bits that its variable does not have. `a <0x80>` of a variable of one octet has no warning.",
        example: "VARIABLE a { TYPE BIT_ENUMERATED; }
COMMAND c { NUMBER 1; OPERATION READ; TRANSACTION { REPLY { a <0x100> } } }",
        counterexample: "VARIABLE a { TYPE BIT_ENUMERATED; }
COMMAND c { NUMBER 1; OPERATION READ; TRANSACTION { REPLY { a <0x80> } } }",
        notes: "",
    },
    Row {
        lint: Lint::SilentRead,
        name: "silent-read",
        level: Level::Warn,
        summary: "a READ command that asks for variables and gets nothing",
        details: "a transaction of a READ command with variables in its REQUEST and nothing in its REPLY: REPLY is meant. So it is of one whose REPLY has variables for INFO alone: nothing is kept.",
        example: "VARIABLE a { TYPE INTEGER; }
COMMAND c { NUMBER 1; OPERATION READ; TRANSACTION { REQUEST { a } REPLY { } } }",
        counterexample: "VARIABLE a { TYPE INTEGER; }
COMMAND c { NUMBER 1; OPERATION READ; TRANSACTION { REQUEST { } REPLY { a } } }",
        notes: "A transaction without anything may be there for later, and has no warning.",
    },
    Row {
        lint: Lint::SilentWrite,
        name: "silent-write",
        level: Level::Warn,
        summary: "a WRITE command that sends nothing",
        details: "a WRITE command none of whose transactions has anything in its REQUEST, though one has variables in its REPLY.",
        example: "VARIABLE a { TYPE INTEGER; }
COMMAND c { NUMBER 1; OPERATION WRITE; TRANSACTION { REPLY { a } } }",
        counterexample: "VARIABLE a { TYPE INTEGER; }
COMMAND c { NUMBER 1; OPERATION WRITE; TRANSACTION { REQUEST { a } REPLY { a } } }",
        notes: "",
    },
    Row {
        lint: Lint::WrittenReadOnly,
        name: "written-read-only",
        level: Level::Warn,
        summary: "a variable with HANDLING READ in the REQUEST of a WRITE command",
        details: "a variable with HANDLING READ, under no condition, in the REQUEST of a WRITE command, which no method sets: nothing but what was read can be written. With a mask, INFO or INDEX it says something else and has no warning.",
        example: "VARIABLE a { HANDLING READ; TYPE INTEGER; }
COMMAND c { NUMBER 1; OPERATION WRITE; TRANSACTION { REQUEST { a } } }",
        counterexample: "VARIABLE a { HANDLING READ; TYPE INTEGER; }
COMMAND c { NUMBER 1; OPERATION WRITE; TRANSACTION { REQUEST { a (INFO) } } }",
        notes: "",
    },
    Row {
        lint: Lint::WideCommandNumber,
        name: "wide-command-number",
        level: Level::Warn,
        summary: "a NUMBER of a command over 65535",
        details: "a NUMBER of a command that two octets do not hold.",
        example: "COMMAND c { NUMBER 70000; OPERATION READ; TRANSACTION { } }",
        counterexample: "COMMAND c { NUMBER 700; OPERATION READ; TRANSACTION { } }",
        notes: "",
    },
    Row {
        lint: Lint::AmbiguousTransaction,
        name: "ambiguous-transaction",
        level: Level::Warn,
        summary: "two transactions that can't be told apart: one has no number, or both send the same",
        details: "a transaction without a number in a command with another one that has none either, or 0: one without a number counts as 0. So it is of two transactions that send the same, constants among it: a device can't tell them apart.",
        example: "COMMAND c { NUMBER 1; OPERATION READ; TRANSACTION 0 { } TRANSACTION { } }",
        counterexample: "COMMAND c { NUMBER 1; OPERATION READ; TRANSACTION 0 { } TRANSACTION 1 { } }",
        notes: "",
    },
    Row {
        lint: Lint::FailingZero,
        name: "failing-zero",
        level: Level::Warn,
        summary: "the response code 0 with another class than SUCCESS",
        details: "the response code 0 with another class than SUCCESS: it is the code of what went well.",
        example: r#"COMMAND c { NUMBER 1; OPERATION READ; TRANSACTION { } RESPONSE_CODES { 0, MODE_ERROR, "Locked" } }"#,
        counterexample: r#"COMMAND c { NUMBER 1; OPERATION READ; TRANSACTION { } RESPONSE_CODES { 0, SUCCESS, "OK" } }"#,
        notes: "",
    },
    Row {
        lint: Lint::EmptyResponseCodes,
        name: "empty-response-codes",
        level: Level::Warn,
        summary: "RESPONSE_CODES without any",
        details: "RESPONSE_CODES without any, which says the same as none.",
        example: "COMMAND c { NUMBER 1; OPERATION READ; TRANSACTION { } RESPONSE_CODES { } }",
        counterexample: "COMMAND c { NUMBER 1; OPERATION READ; TRANSACTION { } }",
        notes: "",
    },
    Row {
        lint: Lint::NarrowMask,
        name: "narrow-mask",
        level: Level::Warn,
        summary: "a mask with too few bits for the enumerators of its variable",
        details: "a mask of an ENUMERATED variable that has fewer bits than its enumerators need, all masks of the variable in the list together.",
        example: r#"VARIABLE e { TYPE ENUMERATED { { 0, "off" } { 1, "on" } { 3, "hold" } } }
COMMAND c { NUMBER 1; OPERATION READ; TRANSACTION { REPLY { e <0x80> } } }"#,
        counterexample: r#"VARIABLE e { TYPE ENUMERATED { { 0, "off" } { 1, "on" } { 3, "hold" } } }
COMMAND c { NUMBER 1; OPERATION READ; TRANSACTION { REPLY { e <0xC0> } } }"#,
        notes: "",
    },
    Row {
        lint: Lint::RepeatedResponseText,
        name: "repeated-response-text",
        level: Level::Warn,
        summary: "two response codes of a command with one class and one text",
        details: "two response codes of one command with the same class and the same text: another one was copied. Texts such as `Reserved` may be there again.",
        example: r#"COMMAND c { NUMBER 1; OPERATION READ; TRANSACTION { } RESPONSE_CODES { 3, DATA_ENTRY_ERROR, "Too large"; 4, DATA_ENTRY_ERROR, "Too large" } }"#,
        counterexample: r#"COMMAND c { NUMBER 1; OPERATION READ; TRANSACTION { } RESPONSE_CODES { 3, DATA_ENTRY_ERROR, "Too large"; 4, DATA_ENTRY_ERROR, "Too small" } }"#,
        notes: "",
    },
    Row {
        lint: Lint::UnevenEcho,
        name: "uneven-echo",
        level: Level::Warn,
        summary: "a reply that repeats something else than its request has, where all others repeat that",
        details: "the one transaction of a command whose REPLY begins with the constant of another one's REQUEST, where two at least begin with that of their own; and the one transaction of all WRITE commands whose REPLY has other variables than its REQUEST, where four at least have the same.",
        example: "VARIABLE a { TYPE INTEGER; }
COMMAND c { NUMBER 1; OPERATION READ;
    TRANSACTION 0 { REQUEST { 0 } REPLY { 0, a } }
    TRANSACTION 1 { REQUEST { 1 } REPLY { 0, a } }
    TRANSACTION 2 { REQUEST { 2 } REPLY { 2, a } }
}",
        counterexample: "VARIABLE a { TYPE INTEGER; }
COMMAND c { NUMBER 1; OPERATION READ;
    TRANSACTION 0 { REQUEST { 0 } REPLY { 0, a } }
    TRANSACTION 1 { REQUEST { 1 } REPLY { 1, a } }
    TRANSACTION 2 { REQUEST { 2 } REPLY { 2, a } }
}",
        notes: "",
    },
    Row {
        lint: Lint::OppositeClass,
        name: "opposite-class",
        level: Level::Warn,
        summary: "a response code whose text says the opposite of its class",
        details: "a response code of class SUCCESS whose text says that something went wrong, as `Value too large`, and one of the class of an error whose text is `OK`, `Done` or another word for what went well.",
        example: r#"COMMAND c { NUMBER 1; OPERATION READ; TRANSACTION { } RESPONSE_CODES { 0, SUCCESS, "OK"; 3, SUCCESS, "Value too large" } }"#,
        counterexample: r#"COMMAND c { NUMBER 1; OPERATION READ; TRANSACTION { } RESPONSE_CODES { 0, SUCCESS, "OK"; 3, DATA_ENTRY_ERROR, "Value too large" } }"#,
        notes: "",
    },
    Row {
        lint: Lint::UnsharedCondition,
        name: "unshared-condition",
        level: Level::Warn,
        summary: "a condition in a message on a variable that no message carries",
        details: "a condition in a REQUEST or a REPLY on variables that can be entered, that no message carries and no method sets, two of whose branches have other items with the same octets for some values: who sends and who receives them have other values for the condition ([OCTETS](OCTETS.md#rules)), and nothing in the message tells the branches apart. Branches of which one is longer, or has another constant at a place, can be told apart, and one with masks is not looked at.",
        example: "VARIABLE a { TYPE INTEGER; }
VARIABLE b { TYPE INTEGER; }
VARIABLE mode { TYPE UNSIGNED_INTEGER; }
COMMAND c { NUMBER 1; OPERATION READ; TRANSACTION { REPLY { IF (mode == 0) { a } ELSE { b } } } }",
        counterexample: "VARIABLE a { TYPE INTEGER; }
VARIABLE b { TYPE INTEGER; }
VARIABLE mode { TYPE UNSIGNED_INTEGER; }
COMMAND c { NUMBER 1; OPERATION READ; TRANSACTION { REQUEST { mode } REPLY { IF (mode == 0) { a } ELSE { b } } } }",
        notes: "",
    },
];
