//! Which rule a description breaks.

use crate::Explanation;

pub(crate) const TABLE: &[Explanation] = &[
    Explanation::new(
        20,
        "DUPLICATE_NAME",
        "Two items, two members of one collection, or two locals of one block have this name. Items
of all kinds share their names.",
    )
    .wrong(
        "VARIABLE p { TYPE INTEGER; }
MENU p { ITEMS { } }",
    )
    .right(
        "VARIABLE p { TYPE INTEGER; }
MENU pressures { ITEMS { p } }",
    ),
    Explanation::new(
        21,
        "UNKNOWN_NAME",
        "Nothing has this name: no item, no local that is declared before and still open, no member
of the collection, no function. Names of different case differ.",
    )
    .wrong("MENU m { ITEMS { pressure } }")
    .right(
        "VARIABLE pressure { TYPE INTEGER; }
MENU m { ITEMS { pressure } }",
    ),
    Explanation::new(
        22,
        "WRONG_KIND",
        "What has this name may not be there: an expression, a data item and an element of an
array want a variable, a member an item of the kind after OF, a menu entry anything but a
command and an array, add_abort_method a method. A point may follow only a collection, and
an index in brackets only an array, which a local of its name hides.",
    )
    .wrong(
        "MENU m { ITEMS { } }
VARIABLE p { TYPE INTEGER { MIN_VALUE m + 1; } }",
    )
    .right(
        "VARIABLE least { TYPE INTEGER; }
VARIABLE p { TYPE INTEGER { MIN_VALUE least + 1; } }",
    ),
    Explanation::new(
        23,
        "DUPLICATE_ATTRIBUTE",
        "An item, a transaction or the braces of a type have this attribute twice. Only TRANSACTION
may be there more than once.",
    )
    .wrong(r#"VARIABLE p { LABEL "Pressure"; TYPE INTEGER; LABEL "P"; }"#)
    .right(r#"VARIABLE p { LABEL "Pressure"; TYPE INTEGER; }"#),
    Explanation::new(
        24,
        "MISSING_ATTRIBUTE",
        "The item must have this attribute: a variable TYPE; a command NUMBER, OPERATION and a
TRANSACTION; a menu ITEMS; a collection MEMBERS; a method DEFINITION; an array ELEMENTS.",
    )
    .wrong(r#"VARIABLE p { LABEL "Pressure"; }"#)
    .right(r#"VARIABLE p { LABEL "Pressure"; TYPE INTEGER; }"#),
    Explanation::new(
        30,
        "FLOAT_VARIABLE",
        "The variable is FLOAT or DOUBLE. This profile is in integers.

Take an integer in a smaller unit.",
    )
    .wrong(r#"VARIABLE p { TYPE FLOAT; CONSTANT_UNIT "bar"; }"#)
    .right(r#"VARIABLE p { TYPE INTEGER (4); CONSTANT_UNIT "mbar"; }"#),
    Explanation::new(
        31,
        "OTHER_TYPE",
        "The variable has a type that this profile does not have. It has INTEGER, UNSIGNED_INTEGER,
ENUMERATED and BIT_ENUMERATED.",
    )
    .wrong("VARIABLE t { TYPE TIME; }")
    .right("VARIABLE seconds { TYPE UNSIGNED_INTEGER (4); }"),
    Explanation::new(
        32,
        "BAD_SIZE",
        "The size of the variable's type is not 1 to 4 octets.",
    )
    .wrong("VARIABLE p { TYPE INTEGER (8); }")
    .right("VARIABLE p { TYPE INTEGER (4); }"),
    Explanation::new(
        33,
        "MISMATCH",
        "At the line is something that does not fit its place: arguments that the function does
not take, as an element of an array for a variable of the device, abort inside an
expression, an enumerator in INTEGER or UNSIGNED_INTEGER, MIN_VALUE or another option but
DEFAULT_VALUE in an enumerated type.",
    )
    .wrong("METHOD m { DEFINITION { DELAY(5); } }")
    .right(r#"METHOD m { DEFINITION { DELAY(5, "Please wait"); } }"#),
    Explanation::new(
        34,
        "FLOAT_VALUE",
        "A decimal is in an expression. This profile is in integers.",
    )
    .wrong("VARIABLE p { TYPE INTEGER { MAX_VALUE 1.5; } }")
    .right("VARIABLE p { TYPE INTEGER (2) { MAX_VALUE 1500; } }"),
    Explanation::new(
        35,
        "BREAK_OUTSIDE",
        "A break is outside all loops and switches, or a continue outside all loops.",
    )
    .wrong("METHOD m { DEFINITION { break; } }")
    .right("METHOD m { DEFINITION { return; } }"),
    Explanation::new(
        36,
        "CONST_RANGE",
        "A constant in a REQUEST or REPLY is over 255, or a mask is 0: a constant is one octet of
the message.",
    )
    .wrong("COMMAND c { NUMBER 1; OPERATION READ; TRANSACTION { REQUEST { 256 } } }")
    .right("COMMAND c { NUMBER 1; OPERATION READ; TRANSACTION { REQUEST { 1, 0 } } }"),
    Explanation::new(
        37,
        "DUPLICATE_CASE",
        "Two labels of one switch are equal, as numbers of 32 bits; or a switch or SELECT has a
second default. Equal labels of a SELECT are allowed, and the first counts.",
    )
    .wrong("METHOD m { DEFINITION { switch (1) { case 1: break; case 1: return; } } }")
    .right("METHOD m { DEFINITION { switch (1) { case 1: break; case 2: return; } } }"),
    Explanation::new(
        38,
        "DUPLICATE_ELEMENT",
        "Two elements of one array have the same number. The line is that of the later one. The
numbers may leave gaps and come in any order, and one variable may have several.",
    )
    .wrong(
        "VARIABLE p { TYPE INTEGER; }
VARIABLE q { TYPE INTEGER; }
ARRAY OF VARIABLE pressures { ELEMENTS { 1, p; 1, q; } }",
    )
    .right(
        "VARIABLE p { TYPE INTEGER; }
VARIABLE q { TYPE INTEGER; }
ARRAY OF VARIABLE pressures { ELEMENTS { 1, p; 2, q; } }",
    ),
    Explanation::new(
        40,
        "TOO_MANY",
        "The description has more of something than an image can have. The word says of what:

    items         4,096 of a kind
    transactions  4,096 of a command
    locals        64 declarators of a method
    nodes         524,288 attributes, values, statements, expressions and the like
    strings       65,535 different texts, keys, class words and member names

Divide the description or the method, or have equal texts where they differ by little.",
    ),
];
