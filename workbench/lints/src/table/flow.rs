//! Lints on the ways through methods, and their locals.

use super::Row;
use crate::levels::Level;
use crate::lint::Lint;

pub(super) const ROWS: &[Row] = &[
    Row {
        lint: Lint::UnreachableStatement,
        name: "unreachable-statement",
        level: Level::Warn,
        summary: "a statement that is never reached",
        details: "a statement after a `return`, `break`, `continue`, `abort` or `process_abort`, after an `if` both of whose branches end so, after a `switch` with a `default` and no `break` whose last case ends so, or after an endless loop that has no `break`; and the third part of a `for` whose body always leaves it. The warning points at what ends the way. A `break` after a `return` and a `return` after an abort, as habit has them, and an empty statement are left alone.",
        example: r#"METHOD m { DEFINITION { return; PUT_MESSAGE("never"); } }"#,
        counterexample: r#"METHOD m { DEFINITION { PUT_MESSAGE("once"); return; } }"#,
        notes: "",
    },
    Row {
        lint: Lint::EndlessLoop,
        name: "endless-loop",
        level: Level::Warn,
        summary: "a loop that nothing ends",
        details: "a loop whose condition always holds, with no `break` of its own, no `return`, no `abort` and no request in it. A loop that makes requests can be ended by the host, which may answer with an abort. The same is a loop in which nothing sets what its condition reads: it never runs, or never ends. So it is of a `while` that a `continue` begins again before anything in it has been set or asked for.",
        example: "VARIABLE a { TYPE INTEGER; }
METHOD m { DEFINITION { while (1) a = a + 1; } }",
        counterexample: "METHOD m { DEFINITION { int i; while (1) { i = i + 1; if (i > 9) break; } } }",
        notes: "",
    },
    Row {
        lint: Lint::DeadLoop,
        name: "dead-loop",
        level: Level::Warn,
        summary: "a loop that never runs",
        details: "a `while` or `for` whose condition is 0, or a `for` that begins at a constant for which its condition does not hold, or with what is known where it begins. `do .. while (0)` runs once, and has no warning.",
        example: "METHOD m { DEFINITION { int i; for (i = 0; i > 5; i++) save_values(); } }",
        counterexample: "METHOD m { DEFINITION { int i; for (i = 0; i < 5; i++) save_values(); } }",
        notes: "",
    },
    Row {
        lint: Lint::BackwardLoop,
        name: "backward-loop",
        level: Level::Warn,
        summary: "a for that counts away from its limit",
        details: "a `for` whose condition is `<` or `<=` and whose third part counts down, or the other way round, where the body does not set the counter. So it is of a `while` or `do` that compares a local with a constant and only counts away from it.",
        example: "METHOD m { DEFINITION { int i; for (i = 0; i < 5; i--) save_values(); } }",
        counterexample: "METHOD m { DEFINITION { int i; for (i = 4; i >= 0; i--) save_values(); } }",
        notes: "`for (i = 4; i >= 0; i--)` has no warning.",
    },
    Row {
        lint: Lint::FallThrough,
        name: "fall-through",
        level: Level::Warn,
        summary: "a case that goes on with the next one, and no comment says so",
        details: "statements of a `case` that go on with those of the next label, with no comment before the label or at the end of the block before it. Labels that follow each other, and a label with nothing but a `break` or a `return`, have no warning.",
        example: "VARIABLE e { TYPE INTEGER; }
METHOD m { DEFINITION { switch (e) { case 1: e = 3; case 2: save_values(); } } }",
        counterexample: "VARIABLE e { TYPE INTEGER; }
METHOD m { DEFINITION { switch (e) { case 1: e = 3; /* falls through */ case 2: save_values(); } } }",
        notes: "`case 1: i = 3; /* falls through */ case 2:` has no warning.",
    },
    Row {
        lint: Lint::AbortMethodLimit,
        name: "abort-method-limit",
        level: Level::Warn,
        summary: "an add_abort_method after eight others: it lists nothing",
        details: "a statement `add_abort_method(..)` of a body after eight such statements: the list has room for eight.",
        example: "METHOD m { DEFINITION {
    add_abort_method(n); add_abort_method(n); add_abort_method(n); add_abort_method(n); add_abort_method(n);
    add_abort_method(n); add_abort_method(n); add_abort_method(n); add_abort_method(n);
} }
METHOD n { DEFINITION { } }",
        counterexample: "METHOD m { DEFINITION {
    add_abort_method(n); add_abort_method(n); add_abort_method(n); add_abort_method(n);
    add_abort_method(n); add_abort_method(n); add_abort_method(n); add_abort_method(n);
} }
METHOD n { DEFINITION { } }",
        notes: "Eight have no warning.",
    },
    Row {
        lint: Lint::NestedAbortMethod,
        name: "nested-abort-method",
        level: Level::Warn,
        summary: "an add_abort_method in an abort method: it lists nothing",
        details: "an add_abort_method in a method that is named nowhere else than where a method which is no abort method itself adds it: in an abort method it lists nothing.",
        example: "METHOD a { DEFINITION { add_abort_method(b); } }
METHOD b { DEFINITION { add_abort_method(c); } }
METHOD c { DEFINITION { } }",
        counterexample: "METHOD a { DEFINITION { add_abort_method(b); add_abort_method(c); } }
METHOD b { DEFINITION { } }
METHOD c { DEFINITION { } }",
        notes: "Where a menu leads to `b` as well, there is no warning.",
    },
    Row {
        lint: Lint::UnreadLocal,
        name: "unread-local",
        level: Level::Warn,
        summary: "a local that is never read",
        details: "a local that is written at most. `i++`, `i += 1` and `i = i + 1` read it for itself alone, but where their value is used or a `for` counts by them.",
        example: "METHOD m { DEFINITION { int code; code = send_command(3); } }",
        counterexample: "METHOD m { DEFINITION { int code; code = send_command(3); if (code) abort(); } }",
        notes: "`i = 5;` as a statement sets it at most; `a = i;` anywhere reads it.",
    },
    Row {
        lint: Lint::UnsetLocal,
        name: "unset-local",
        level: Level::Warn,
        summary: "a local that is read before anything sets it",
        details: "a local that is read and that nothing ever sets, or that is read, outside of loops, before anything sets it: it is 0. An assignment to itself, as `i = i + 1`, `i++` and `i += 1`, may begin at 0.",
        example: "METHOD m { DEFINITION { int code; if (code == 3) save_values(); } }",
        counterexample: "METHOD m { DEFINITION { int code = 3; if (code == 3) save_values(); } }",
        notes: "`int code = 3;` has no warning.",
    },
    Row {
        lint: Lint::HidingLocal,
        name: "hiding-local",
        level: Level::Warn,
        summary: "a local with the name of an item, which can't be reached there",
        details: "a local with the name of an item or of a local around it, which can't be reached where the local is.",
        example: "VARIABLE level { TYPE INTEGER; }
METHOD m { DEFINITION { int level = 2; send_command(level); } }",
        counterexample: "VARIABLE level { TYPE INTEGER; }
METHOD m { DEFINITION { int new_level = 2; send_command(new_level); } }",
        notes: "`int new_level = 2;` has no warning.",
    },
    Row {
        lint: Lint::UnmovedCounter,
        name: "unmoved-counter",
        level: Level::Warn,
        summary: "a loop with requests in which nothing changes the local that its condition reads",
        details: "a loop with requests, but no `break`, `return` or abort, whose condition reads locals and no variables, and in which nothing sets these: only an abort of the host ends it; and a `for` that counts by 0, or multiplies, divides or shifts a counter that stays the same by that.",
        example: "METHOD m { DEFINITION { int i, j = 0; for (i = 0; i < 4; j++) send_command(j); } }",
        counterexample: "METHOD m { DEFINITION { int i; for (i = 0; i < 4; i++) send_command(i); } }",
        notes: "",
    },
    Row {
        lint: Lint::UnrefreshedWait,
        name: "unrefreshed-wait",
        level: Level::Warn,
        summary: "a loop that waits for a variable, and never reads it from the device",
        details: "a loop with requests, but no `break`, `return` or abort, whose condition reads a variable that nothing in it sets, and which asks for nothing but DELAY, PUT_MESSAGE, ACKNOWLEDGE and commands of the description of which no reply names it: only such a reply brings the variable from the device.",
        example: r#"VARIABLE e { TYPE ENUMERATED { { 0, "off" } { 1, "on" } { 3, "hold" } } }
METHOD m { DEFINITION { do { DELAY(1, "Wait"); } while (e != 3); } }"#,
        counterexample: r#"VARIABLE e { TYPE ENUMERATED { { 0, "off" } { 1, "on" } { 3, "hold" } } }
METHOD m { DEFINITION { do { DELAY(1, "Wait"); send_command(1); } while (e != 3); } }"#,
        notes: "",
    },
    Row {
        lint: Lint::CountedTwice,
        name: "counted-twice",
        level: Level::Warn,
        summary: "a for whose body counts its counter too",
        details: "a statement right in the body of a `for`, under no condition, that counts what the head of the `for` counts or sets it to a constant; and a `for` in the body that counts the same, where nothing leaves the loop, or the inner one.",
        example: "METHOD m { DEFINITION { int i; for (i = 0; i < 4; i++) { send_command(i); i++; } } }",
        counterexample: "METHOD m { DEFINITION { int i; for (i = 0; i < 4; i++) { send_command(i); if (i == 2) i++; } } }",
        notes: "",
    },
    Row {
        lint: Lint::SkippedLimit,
        name: "skipped-limit",
        level: Level::Warn,
        summary: "a for that counts past the number it waits for",
        details: "a `for` with `!=` that begins at a constant and counts by one that never comes to the constant limit.",
        example: "METHOD m { DEFINITION { int i; for (i = 5; i != 0; i -= 2) send_command(i); } }",
        counterexample: "METHOD m { DEFINITION { int i; for (i = 6; i != 0; i -= 2) send_command(i); } }",
        notes: "",
    },
    Row {
        lint: Lint::LoopLeavesArray,
        name: "loop-leaves-array",
        level: Level::Warn,
        summary: "a for that counts beyond the elements of an array",
        details: "an index that is the counter of a `for` with constant ends, or of a `while` whose last statement counts it, or a sum of it and a constant, and steps of one, which comes to a number of which the array has no element, and which nothing in the loop sets or tests.",
        example: "VARIABLE v { TYPE INTEGER; }
ARRAY OF VARIABLE r { ELEMENTS { 1, v; } }
METHOD m { DEFINITION { int i; for (i = 0; i <= 1; i++) if (r[i] > 5) send_command(1); } }",
        counterexample: "VARIABLE v { TYPE INTEGER; }
ARRAY OF VARIABLE r { ELEMENTS { 1, v; } }
METHOD m { DEFINITION { int i; for (i = 0; i <= 1; i++) if (i == 1 && r[i] > 5) send_command(1); } }",
        notes: "",
    },
    Row {
        lint: Lint::OwnAbortMethod,
        name: "own-abort-method",
        level: Level::Warn,
        summary: "a method that adds itself as an abort method",
        details: "an add_abort_method of the method itself: where it is aborted, it begins again.",
        example: "METHOD m { DEFINITION { add_abort_method(m); send_command(1); } }",
        counterexample: "METHOD m { DEFINITION { add_abort_method(n); send_command(1); } }
METHOD n { DEFINITION { save_values(); } }",
        notes: "",
    },
    Row {
        lint: Lint::RepeatedAbortMethod,
        name: "repeated-abort-method",
        level: Level::Warn,
        summary: "an abort method that is added twice",
        details: "an add_abort_method of a method that an earlier statement of the body adds, also where the second one is under a condition: it is run twice.",
        example: "METHOD m { DEFINITION { add_abort_method(n); add_abort_method(n); send_command(1); } }
METHOD n { DEFINITION { save_values(); } }",
        counterexample: "METHOD m { DEFINITION { add_abort_method(n); send_command(1); } }
METHOD n { DEFINITION { save_values(); } }",
        notes: "",
    },
    Row {
        lint: Lint::LateAbortMethod,
        name: "late-abort-method",
        level: Level::Warn,
        summary: "an add_abort_method after which nothing can abort",
        details: "an add_abort_method behind other statements of a body, after which no function is called: no abort can follow.",
        example: "METHOD m { DEFINITION { send_command(1); add_abort_method(n); } }
METHOD n { DEFINITION { save_values(); } }",
        counterexample: "METHOD m { DEFINITION { add_abort_method(n); send_command(1); } }
METHOD n { DEFINITION { save_values(); } }",
        notes: "",
    },
    Row {
        lint: Lint::LoopedAbortMethod,
        name: "looped-abort-method",
        level: Level::Warn,
        summary: "an add_abort_method in a loop",
        details: "an add_abort_method in a loop: it is added again in each turn.",
        example: "METHOD m { DEFINITION { int i; for (i = 0; i < 4; i++) { add_abort_method(n); send_command(i); } } }
METHOD n { DEFINITION { save_values(); } }",
        counterexample: "METHOD m { DEFINITION { int i; add_abort_method(n); for (i = 0; i < 4; i++) send_command(i); } }
METHOD n { DEFINITION { save_values(); } }",
        notes: "",
    },
    Row {
        lint: Lint::MissedEnd,
        name: "missed-end",
        level: Level::Warn,
        summary: "a test behind a loop of what its counter was one step before",
        details: "a test right behind a loop, which a `break` may leave, of whether its counter is what the condition of the loop has compared it with: as in `while (n-- > 0)`, it has counted once more by then.",
        example: "METHOD m { DEFINITION { int n = 10; while (n-- > 0) { if (send_command(1) == 0) break; } if (n == 0) abort(); } }",
        counterexample: "METHOD m { DEFINITION { int n = 10; while (n-- > 0) { if (send_command(1) == 0) break; } if (n < 0) abort(); } }",
        notes: "",
    },
    Row {
        lint: Lint::RestartedSum,
        name: "restarted-sum",
        level: Level::Warn,
        summary: "a sum that each turn of a loop begins again",
        details: "a local that the body of a loop declares or sets to 0 first, and to which it adds something once: it is what is added, and no sum.",
        example: "VARIABLE a { TYPE INTEGER; }
METHOD m { DEFINITION { int i; for (i = 0; i < 4; i++) { int sum = 0; send_command(i); sum += a; if (sum > 100) abort(); } } }",
        counterexample: "VARIABLE a { TYPE INTEGER; }
METHOD m { DEFINITION { int i, sum = 0; for (i = 0; i < 4; i++) { send_command(i); sum += a; if (sum > 100) abort(); } } }",
        notes: "",
    },
    Row {
        lint: Lint::RepeatedTurns,
        name: "repeated-turns",
        level: Level::Warn,
        summary: "a `for` whose turns all do the same",
        details: "a `for` whose body reads an element of an array and has nothing to do with the counter, adds nothing up, asks for nothing and does not leave it: another counter is meant in it.",
        example: "VARIABLE v { TYPE INTEGER; }
VARIABLE w { TYPE INTEGER; }
ARRAY OF VARIABLE r { ELEMENTS { 1, v; 2, w; } }
METHOD m { DEFINITION { int i = 1, j, high = 0; for (j = 1; j <= 2; j++) if (r[i] > 5) high = 1; if (high) send_command(1); } }",
        counterexample: "VARIABLE v { TYPE INTEGER; }
VARIABLE w { TYPE INTEGER; }
ARRAY OF VARIABLE r { ELEMENTS { 1, v; 2, w; } }
METHOD m { DEFINITION { int j, high = 0; for (j = 1; j <= 2; j++) if (r[j] > 5) high = 1; if (high) send_command(1); } }",
        notes: "",
    },
    Row {
        lint: Lint::UnevenAverage,
        name: "uneven-average",
        level: Level::Warn,
        summary: "a mean whose divisor is one beside how many values were added",
        details: "a sum that a `for` with a constant number of turns adds up in each of them, and that is divided behind it by one more or one less.",
        example: "VARIABLE a { TYPE INTEGER; }
METHOD m { DEFINITION { int i, sum = 0; for (i = 0; i < 5; i++) { send_command(1); sum += a; } a = sum / 4; } }",
        counterexample: "VARIABLE a { TYPE INTEGER; }
METHOD m { DEFINITION { int i, sum = 0; for (i = 0; i < 5; i++) { send_command(1); sum += a; } a = sum / 5; } }",
        notes: "",
    },
];
