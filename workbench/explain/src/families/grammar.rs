//! Why a text spells no description.

use crate::Explanation;

pub(crate) const TABLE: &[Explanation] = &[
    Explanation::new(
        10,
        "SYNTAX",
        "What is at the line fits nothing that may be there. It is often the end of
something before it that is missing: a semicolon, a brace, a quote. At the end of the text
the line is the last. An element of an array is only read: nothing is stored to it, and no
menu entry and no message has one.",
    )
    .wrong(r#"VARIABLE p { LABEL "Pressure" TYPE INTEGER; }"#)
    .right(r#"VARIABLE p { LABEL "Pressure"; TYPE INTEGER; }"#),
    Explanation::new(
        11,
        "TOO_DEEP",
        "More than 100 levels are inside one another at the line: parentheses, operators,
statements, IF and SELECT. A chain of operators that group to the left has a level for
each.

Divide the expression: give a part of it to a local, or to a variable of its own.",
    ),
    Explanation::new(
        12,
        "UNSUPPORTED",
        "The word is one of EDDL that this profile leaves out, and nothing that it has fits there:
an item as RECORD or REFRESH, an attribute as SCALING_FACTOR, LIKE, a statement with float
or goto. After ARRAY OF it is the word of a kind of item: arrays are of variables alone.
docs/LANGUAGE.md lists the words.",
    )
    .wrong("VARIABLE p LIKE q")
    .right(r#"VARIABLE p { LABEL "Pressure"; TYPE INTEGER (2); }"#),
];
