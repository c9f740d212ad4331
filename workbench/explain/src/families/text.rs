//! Why a text has no tokens.

use crate::Explanation;

pub(crate) const TABLE: &[Explanation] = &[
    Explanation::new(
        1,
        "NOT_UTF8",
        "The text is not UTF-8. The line is that of the first bytes that are not.

Save the source as UTF-8. A source in Latin-1 or UTF-16 has to be converted first.",
    ),
    Explanation::new(
        2,
        "TOO_LONG",
        "The text has more than 1,048,576 bytes.

A description is one text with all that its preprocessor put in. Leave out comments and
what is not used, or divide the device's description.",
    ),
    Explanation::new(
        3,
        "BAD_CHARACTER",
        "A character is where no token begins with it: a letter past ASCII outside strings and
comments, a control character, @, $, ' or a backslash, a # that is not the first sign of
its line, or a word of more than 255 bytes.",
    )
    .wrong("VARIABLE größe { TYPE INTEGER; }")
    .right(r#"VARIABLE size { LABEL "Größe"; TYPE INTEGER; }"#),
    Explanation::new(
        4,
        "OPEN_COMMENT",
        "A comment is opened and never closed. The line is that where it begins. Comments are not
nested, and /*/ does not close itself.",
    )
    .wrong(
        "/* the pressure
VARIABLE p { TYPE INTEGER; }",
    )
    .right(
        "/* the pressure */
VARIABLE p { TYPE INTEGER; }",
    ),
    Explanation::new(
        5,
        "OPEN_STRING",
        "A string is opened and never closed. The line is that where it begins. Where a quote is
forgotten, the next string's opening quote closes this one, so the fault can be found far
below it.",
    )
    .wrong(r#"VARIABLE p { LABEL "Pressure; TYPE INTEGER; }"#)
    .right(r#"VARIABLE p { LABEL "Pressure"; TYPE INTEGER; }"#),
    Explanation::new(
        6,
        "BAD_ESCAPE",
        r#"A string contains a backslash with something after it that makes no escape. The line is
that where the string begins. The escapes are \" \\ \n \t and \|."#,
    )
    .wrong(r#"VARIABLE p { LABEL "C:\device"; TYPE INTEGER; }"#)
    .right(r#"VARIABLE p { LABEL "C:\\device"; TYPE INTEGER; }"#),
    Explanation::new(
        7,
        "BAD_NUMBER",
        "A number is none of the language: it is over 4294967295, begins with a 0 that is not its
only digit, or a letter, a digit, _ or a point follows it directly. There are no octal
numbers and no suffixes.",
    )
    .wrong("VARIABLE p { TYPE INTEGER { MIN_VALUE 08; } }")
    .right("VARIABLE p { TYPE INTEGER { MIN_VALUE 8; } }"),
    Explanation::new(
        8,
        "DIRECTIVE",
        r#"A line begins with a directive of a preprocessor. The source is one text that was
preprocessed before: of all directives only the marks that a preprocessor leaves behind
may be in it, as # 12 "file" and #line 12."#,
    )
    .wrong(
        "#define SIZE 2
VARIABLE p { TYPE INTEGER (SIZE); }",
    )
    .right("VARIABLE p { TYPE INTEGER (2); }"),
];
