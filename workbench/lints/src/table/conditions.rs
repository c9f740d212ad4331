//! Lints on expressions and conditions.

use super::Row;
use crate::levels::Level;
use crate::lint::Lint;

pub(super) const ROWS: &[Row] = &[
    Row {
        lint: Lint::TrappingExpression,
        name: "trapping-expression",
        level: Level::Warn,
        summary: "a division by 0, or a shift by too many bits: it always traps",
        details: "a division by a constant 0, or a shift by a constant that is negative or at least the number of bits. Where it is evaluated the attribute has no value, or the method ends.",
        example: "VARIABLE a { TYPE INTEGER { MAX_VALUE b << 64; } }
VARIABLE b { TYPE INTEGER; }",
        counterexample: "VARIABLE a { TYPE INTEGER { MAX_VALUE b << 63; } }
VARIABLE b { TYPE INTEGER; }",
        notes: "",
    },
    Row {
        lint: Lint::ConstantCondition,
        name: "constant-condition",
        level: Level::Warn,
        summary: "a condition that is computed and never changes",
        details: "an IF, SELECT, `if`, `switch` or loop over a constant that is computed: one branch is always taken. A plain number, as in `while (1)`, `do .. while (0)`, `IF (1)` and `if (0)`, says so on purpose and has no warning ([`literal-condition`](#off-unless-denied) asks for it), and a loop that never ends or never runs has the warning of that alone.",
        example: r#"METHOD m { DEFINITION { if (2 > 1) PUT_MESSAGE("always"); } }"#,
        counterexample: r#"METHOD m { DEFINITION { if (1) PUT_MESSAGE("always"); } }"#,
        notes: "",
    },
    Row {
        lint: Lint::RepeatedCase,
        name: "repeated-case",
        level: Level::Warn,
        summary: "a CASE with the label of an earlier one: it is never taken",
        details: "a CASE with the label of an earlier CASE of its SELECT. It is never taken. (A method's `switch` with a label twice is refused.)",
        example: "VARIABLE a { TYPE INTEGER; VALIDITY SELECT (b) { CASE 1: TRUE; CASE 1: FALSE; } }
VARIABLE b { TYPE INTEGER; }",
        counterexample:
            "VARIABLE a { TYPE INTEGER; VALIDITY SELECT (b) { CASE 1: TRUE; CASE 2: FALSE; } }
VARIABLE b { TYPE INTEGER; }",
        notes: "",
    },
    Row {
        lint: Lint::MisreadOperators,
        name: "misread-operators",
        level: Level::Warn,
        summary: "operators that bind otherwise than they look: parentheses say what is meant",
        details: "operators that bind otherwise than they look: a comparison that is an operand of `&`, `|` or `^` without parentheses, since comparisons bind closer; a comparison of what a comparison gives, as in `1 < a < 5`; and `!` before a comparison, or before an operand of `&`, `|` or `^`, as in `!flags & 4`. So it is of `10 ^ 3`, which is no power, where both are plain decimal numbers and the first is 2 or 10; of `!4`, where `~4` inverts bits; of a sum in a shift, as in `a << 8 + b` and `a + b << 8`; and of a sum with a variable of enumerators that is compared with a number, as in `limit + mode == 1`. `!a == !b` and `a == 1 | a == 2` are evaluated as they look and have no warning.",
        example: "VARIABLE a { TYPE INTEGER { MAX_VALUE b & 2 == 2; } }
VARIABLE b { TYPE INTEGER; }",
        counterexample: "VARIABLE a { TYPE INTEGER { MAX_VALUE (b & 2) == 2; } }
VARIABLE b { TYPE INTEGER; }",
        notes: "",
    },
    Row {
        lint: Lint::SettledComparison,
        name: "settled-comparison",
        level: Level::Warn,
        summary: "a comparison or a CASE that the type of the variable has settled",
        details: "a comparison of a variable with a constant that is true, or false, for all that the variable can hold, and a label of a SELECT or `switch` over it, or over what is computed, that it can't be. So are two comparisons of one name with constants, or of the same two names, joined by `&&` or `||`, that never hold together, or of which one always holds. Where two comparisons joined by `&&` or `||` have the two ends of a range, the order may be settled by one of them. In a method an unsigned variable of four octets is read as a number with a sign.",
        example: "VARIABLE a { TYPE INTEGER; VALIDITY IF (b < 300) { TRUE; } ELSE { FALSE; } }
VARIABLE b { TYPE UNSIGNED_INTEGER; }",
        counterexample:
            "VARIABLE a { TYPE INTEGER; VALIDITY IF (b < 200) { TRUE; } ELSE { FALSE; } }
VARIABLE b { TYPE UNSIGNED_INTEGER; }",
        notes: "`a < 200`, `a >= 0 && a <= 100` and `a == 5 || a == 6` have no warning; `a == 5 && a == 6` has one.",
    },
    Row {
        lint: Lint::EqualOperands,
        name: "equal-operands",
        level: Level::Warn,
        summary: "an operator with the same on both of its sides",
        details: "a comparison, `-`, `/`, `%`, `&`, `|` or `^` with the same on both sides, also as `-=` and so on, and `&&` or `||` with the same: a name, an element of a constant number, or the same operators on such and on numbers.",
        example: "METHOD m { DEFINITION { int i; i = 2; if (i == 1 || i == 1) save_values(); } }",
        counterexample: "METHOD m { DEFINITION { int i; i = 2; if (i == 1 || i == 2) save_values(); } }",
        notes: "`i == 1 || i == 2` and `i + i` have no warning.",
    },
    Row {
        lint: Lint::EqualBranches,
        name: "equal-branches",
        level: Level::Warn,
        summary: "two branches of a condition that are the same",
        details: "an IF or `if` and its ELSE or `else` with the same tokens, and a `? :` that chooses between one value and the same.",
        example: "METHOD m { DEFINITION { int i; i = 2; if (i) save_values(); else save_values(); } }",
        counterexample: "METHOD m { DEFINITION { int i; i = 2; if (i) save_values(); else i = 3; } }",
        notes: "`if (i) save_values(); else i = 3;` has no warning.",
    },
    Row {
        lint: Lint::RepeatedCondition,
        name: "repeated-condition",
        level: Level::Warn,
        summary: "a condition that an earlier IF of its chain has",
        details: "an IF after ELSE, or an `if` after `else`, with the condition of an earlier one of its chain: its branch is never taken. Conditions with calls or assignments are left alone.",
        example:
            "VARIABLE a { TYPE INTEGER; VALIDITY IF (b == 1) { TRUE; } ELSE IF (b == 1) { FALSE; } }
VARIABLE b { TYPE INTEGER; }",
        counterexample:
            "VARIABLE a { TYPE INTEGER; VALIDITY IF (b == 1) { TRUE; } ELSE IF (b == 2) { FALSE; } }
VARIABLE b { TYPE INTEGER; }",
        notes: "`ELSE IF (a == 2)` has no warning.",
    },
    Row {
        lint: Lint::MissingElement,
        name: "missing-element",
        level: Level::Warn,
        summary: "an index that is the number of no element: it always traps",
        details: "an index that is a constant and the number of no element of its array. Where it is evaluated it traps.",
        example: "VARIABLE v { TYPE INTEGER; }
ARRAY OF VARIABLE a { ELEMENTS { 5, v; } }
METHOD m { DEFINITION { v = a[1]; } }",
        counterexample: "VARIABLE v { TYPE INTEGER; }
ARRAY OF VARIABLE a { ELEMENTS { 5, v; } }
METHOD m { DEFINITION { v = a[5]; } }",
        notes: "",
    },
    Row {
        lint: Lint::MissingElse,
        name: "missing-else",
        level: Level::Warn,
        summary: "a VALIDITY or HANDLING under a condition that gives what holds anyway",
        details: "a VALIDITY under conditions that is TRUE wherever it is written and has no value elsewhere, where an item is valid too; and a HANDLING that is READ & WRITE so. The condition changes nothing: an ELSE is missing.",
        example: "VARIABLE a { VALIDITY IF (b == 1) { TRUE; } TYPE INTEGER; }
VARIABLE b { TYPE INTEGER; }",
        counterexample: "VARIABLE a { VALIDITY IF (b == 1) { FALSE; } TYPE INTEGER; }
VARIABLE b { TYPE INTEGER; }",
        notes: "",
    },
    Row {
        lint: Lint::MissingCase,
        name: "missing-case",
        level: Level::Warn,
        summary: "a SELECT of a text without a case for an enumerator",
        details: "a SELECT over an ENUMERATED variable that is a LABEL or a CONSTANT_UNIT, without DEFAULT and without a CASE for one of the enumerators: there it is no text.",
        example: r#"VARIABLE e { TYPE ENUMERATED { { 0, "off" } { 1, "on" } { 3, "hold" } } }
VARIABLE v { CONSTANT_UNIT SELECT (e) { CASE 0: "a"; CASE 1: "b"; } TYPE INTEGER; }"#,
        counterexample: r#"VARIABLE e { TYPE ENUMERATED { { 0, "off" } { 1, "on" } { 3, "hold" } } }
VARIABLE v { CONSTANT_UNIT SELECT (e) { CASE 0: "a"; CASE 1: "b"; DEFAULT: "c"; } TYPE INTEGER; }"#,
        notes: "Limits may be there for some values alone.",
    },
    Row {
        lint: Lint::EmptyCondition,
        name: "empty-condition",
        level: Level::Warn,
        summary: "a condition with nothing under it",
        details: "an IF or a SELECT in a list that has nothing in any of its branches.",
        example: r#"VARIABLE e { TYPE ENUMERATED { { 0, "off" } { 1, "on" } { 3, "hold" } } }
MENU x { ITEMS { e, IF (e == 1) { } } }"#,
        counterexample: r#"VARIABLE e { TYPE ENUMERATED { { 0, "off" } { 1, "on" } { 3, "hold" } } }
MENU x { ITEMS { e, IF (e == 1) { "on" } } }"#,
        notes: "",
    },
    Row {
        lint: Lint::SettledCondition,
        name: "settled-condition",
        level: Level::Warn,
        summary: "a comparison or a test of bits that is settled where it stands",
        details: "a comparison that always holds, or never does, by what is known at its place: by the conditions around it, by the last store to a local or a variable, by the bits of a mask; and a condition of bits that are never 0, or always. What is known of variables is forgotten at each request, and of all that a loop sets before the loop. Behind an `if` of one comparison that was not taken it is known that this fails: what can never hold then has a warning, and what always holds is a careful test. Where the last condition of a chain always holds, an `else` behind it is never reached, and has one. Behind a `for` without `break` its counter is at its end. An element of a constant number is the variable that it is, and another one holds what one of all elements does. A local that a loop declares is 0 in each turn, and one that a branch alone sets, under a comparison with itself, is what it is before the loop as long as that fails. Where several are joined nothing is known behind them.",
        example: r#"VARIABLE e { TYPE ENUMERATED { { 0, "off" } { 1, "on" } { 3, "hold" } } }
METHOD m { DEFINITION { if (e == 1) { if (e == 0) send_command(1); } } }"#,
        counterexample: r#"VARIABLE e { TYPE ENUMERATED { { 0, "off" } { 1, "on" } { 3, "hold" } } }
METHOD m { DEFINITION { if (e == 1) { send_command(1); if (e == 0) send_command(2); } } }"#,
        notes: "`if (i)` of a local that is a constant is a habit by which parts are switched off, and has no warning.",
    },
    Row {
        lint: Lint::TruthOfNumber,
        name: "truth-of-number",
        level: Level::Warn,
        summary: "a number as an operand of && or ||",
        details: "a plain number other than 0 and 1 as an operand of `&&` or `||`: it is always true. `mode == 1 || 3` does not compare with 3, and `flags && 4` takes no bit. Beside a comparison with a plain number 1 has a warning too, as in `mode == 0 || 1`.",
        example: r#"VARIABLE e { TYPE ENUMERATED { { 0, "off" } { 1, "on" } { 3, "hold" } } }
METHOD m { DEFINITION { if (e == 1 || 3) send_command(1); } }"#,
        counterexample: r#"VARIABLE e { TYPE ENUMERATED { { 0, "off" } { 1, "on" } { 3, "hold" } } }
METHOD m { DEFINITION { if (e == 1 || e == 3) send_command(1); } }"#,
        notes: "A macro may leave 0 or 1.",
    },
    Row {
        lint: Lint::AlwaysZero,
        name: "always-zero",
        level: Level::Warn,
        summary: "a product or a mask with a constant 0",
        details: "`*` or `&` with a constant 0 and something that is none, and `%` by 1: the value is always 0.",
        example: "VARIABLE a { TYPE INTEGER; }
METHOD m { DEFINITION { a = a * 0; } }",
        counterexample: "VARIABLE a { TYPE INTEGER; }
METHOD m { DEFINITION { a = a * 2; } }",
        notes: "",
    },
    Row {
        lint: Lint::ZeroQuotient,
        name: "zero-quotient",
        level: Level::Warn,
        summary: "a division of constants that gives 0, or loses its fraction before it is multiplied",
        details: "a division of two constants of which the first is the smaller one: without a fraction it gives 0. So it is of one that does not come out even and is multiplied, as in `a * (9 / 5)`.",
        example: "VARIABLE a { TYPE INTEGER; }
METHOD m { DEFINITION { a = 1 / 2 * a; } }",
        counterexample: "VARIABLE a { TYPE INTEGER; }
METHOD m { DEFINITION { a = a * 1 / 2; } }",
        notes: "",
    },
    Row {
        lint: Lint::OverflowingConstant,
        name: "overflowing-constant",
        level: Level::Warn,
        summary: "a constant that 32 bits do not hold",
        details: "a sum, difference or product of two constants in a method that does not fit in 32 bits with a sign. Numbers with the greatest bit, as `0x80000000`, are meant as bits.",
        example: "VARIABLE a { TYPE INTEGER; }
METHOD m { DEFINITION { send_command((2147483647 + 1) / 10); } }",
        counterexample: "VARIABLE a { TYPE INTEGER; }
METHOD m { DEFINITION { send_command(2147483647 / 10); } }",
        notes: "",
    },
    Row {
        lint: Lint::DoubleSign,
        name: "double-sign",
        level: Level::Warn,
        summary: "a + before an operand of + or -",
        details: "a `+` after another `+` or a `-`, which does nothing: one sign is too much, or another operand is missing.",
        example: "VARIABLE a { TYPE INTEGER; }
METHOD m { DEFINITION { a = a + + 1; } }",
        counterexample: "VARIABLE a { TYPE INTEGER; }
METHOD m { DEFINITION { a = a + 1; } }",
        notes: "`a - -1` has no warning.",
    },
    Row {
        lint: Lint::UnnamedBits,
        name: "unnamed-bits",
        level: Level::Warn,
        summary: "a number of bits that no enumerator of its variable names",
        details: "a constant with bits that no enumerator names, of a BIT_ENUMERATED variable with enumerators: what it is compared with by `==` or `!=`, set to by `=`, `|=` or `^=`, or selected by; and a mask of `&`, `|` or `^` none of whose bits has a name, also as `&=`, and of `& ~`.",
        example: r#"VARIABLE b { TYPE BIT_ENUMERATED { { 1, "hot" } { 4, "worn" } } }
METHOD m { DEFINITION { if (b & 2) send_command(1); } }"#,
        counterexample: r#"VARIABLE b { TYPE BIT_ENUMERATED { { 1, "hot" } { 4, "worn" } } }
METHOD m { DEFINITION { if (b & 5) send_command(1); } }"#,
        notes: "`b & 7`, of which some bits have names, and what is written with `~` have no warning.",
    },
    Row {
        lint: Lint::UntestedIndex,
        name: "untested-index",
        level: Level::Warn,
        summary: "an index that may be a number of which the array has no element",
        details: "a variable as an index, of which an enumerator, or a number from its constant MIN_VALUE to its constant MAX_VALUE, is the number of no element, where no condition around it says more of the variable. So it is of an index that is computed from one such variable, and of a comparison, `!` and a remainder, which give few numbers.",
        example: r#"VARIABLE e { TYPE ENUMERATED { { 0, "off" } { 1, "on" } { 3, "hold" } } }
VARIABLE v { TYPE INTEGER { MAX_VALUE r[e]; } }
ARRAY OF VARIABLE r { ELEMENTS { 1, e; } }"#,
        counterexample: "VARIABLE c { TYPE INTEGER { MIN_VALUE 1; MAX_VALUE 1; } }
VARIABLE v { TYPE INTEGER { MAX_VALUE r[c]; } }
ARRAY OF VARIABLE r { ELEMENTS { 1, c; } }",
        notes: "Of a variable without enumerators and without both limits nothing is known.",
    },
    Row {
        lint: Lint::MixedUnits,
        name: "mixed-units",
        level: Level::Warn,
        summary: "values of two units that are compared, added, stored or limits of each other",
        details: "two variables whose CONSTANT_UNIT are two known units and that are compared, added or stored in each other, or one of which is a limit of the other one, as they are: nothing converts them.",
        example: r#"VARIABLE a { CONSTANT_UNIT "m"; TYPE INTEGER; }
VARIABLE b { CONSTANT_UNIT "mm"; TYPE INTEGER (2) { MAX_VALUE a; } }"#,
        counterexample: r#"VARIABLE a { CONSTANT_UNIT "m"; TYPE INTEGER; }
VARIABLE b { CONSTANT_UNIT "mm"; TYPE INTEGER (2) { MAX_VALUE a * 1000; } }"#,
        notes: "",
    },
    Row {
        lint: Lint::ExchangedText,
        name: "exchanged-text",
        level: Level::Warn,
        summary: "a CASE with the text of another enumerator",
        details: "a CASE of a SELECT over a variable of enumerators whose text is that of another enumerator, and a choice of a SELECT_FROM_LIST that sets such a variable to another enumerator than the one with the text of the choice.",
        example: r#"VARIABLE e { TYPE ENUMERATED { { 0, "bar" } { 1, "mbar" } } }
VARIABLE v { CONSTANT_UNIT SELECT (e) { CASE 0: "bar"; CASE 1: "bar"; } TYPE INTEGER; }"#,
        counterexample: r#"VARIABLE e { TYPE ENUMERATED { { 0, "bar" } { 1, "mbar" } } }
VARIABLE v { CONSTANT_UNIT SELECT (e) { CASE 0: "bar"; CASE 1: "mbar"; } TYPE INTEGER; }"#,
        notes: "",
    },
    Row {
        lint: Lint::UnenterableCase,
        name: "unenterable-case",
        level: Level::Warn,
        summary: "cases over a variable that its limits shift",
        details: "a label of a SELECT or `switch` without a default, over a variable that can be entered, that is outside of its constant limits, where a number within them has no case: they are counted from another number.",
        example: r#"VARIABLE c { TYPE INTEGER { MIN_VALUE 1; MAX_VALUE 2; } }
VARIABLE v { HELP SELECT (c) { CASE 0: "left"; CASE 1: "right"; } TYPE INTEGER; }"#,
        counterexample: r#"VARIABLE c { TYPE INTEGER { MIN_VALUE 1; MAX_VALUE 2; } }
VARIABLE v { HELP SELECT (c) { CASE 1: "left"; CASE 2: "right"; } TYPE INTEGER; }"#,
        notes: "",
    },
    Row {
        lint: Lint::UntestedDivisor,
        name: "untested-divisor",
        level: Level::Warn,
        summary: "a computed divisor that is 0 for what its variable may be set to",
        details: "a divisor that is computed from one variable, or is one of enumerators, and that is 0 for an enumerator of it or for a number within its constant limits, where no condition tests the variable. So it is of a number of bits by which something can't be shifted.",
        example: "VARIABLE c { TYPE INTEGER { MIN_VALUE 1; MAX_VALUE 2; } }
VARIABLE v { TYPE INTEGER { MAX_VALUE 100 / (c - 1); } }",
        counterexample: "VARIABLE c { TYPE INTEGER { MIN_VALUE 1; MAX_VALUE 2; } }
VARIABLE v { TYPE INTEGER { MAX_VALUE 100 / (c + 1); } }",
        notes: "",
    },
];
