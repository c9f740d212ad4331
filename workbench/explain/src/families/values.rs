//! What is wrong with values, answers and scripts, and why an expression has no value.

use crate::Explanation;

pub(crate) const TABLE: &[Explanation] = &[
    Explanation::new(
        201,
        "COUNT",
        "A host gave another number of values than the image has variables.",
    ),
    Explanation::new(
        202,
        "RANGE",
        "A value is out of the range of its variable. An INTEGER of s octets holds -2^(8s-1) to
2^(8s-1)-1, the other types 0 to 2^(8s)-1. In a script it is a line that sets a variable:
The hint on the standard error shows which.",
    )
    .wrong_where("for a variable of type INTEGER (1)", "set p 200")
    .right("set p 100"),
    Explanation::new(
        203,
        "NO_ITEM",
        "There is no such attribute to read, or no such method with a body to run.",
    ),
    Explanation::new(
        204,
        "WRONG_VALUES",
        "A host gave values that are not those of a device of this description.",
    ),
    Explanation::new(
        205,
        "NOT_ASKING",
        "A host answered a method that had asked for nothing.",
    ),
    Explanation::new(
        206,
        "BAD_VARIABLE",
        "An answer sets a variable that does not exist.",
    ),
    Explanation::new(
        207,
        "OUT_OF_RANGE",
        "An answer sets a variable to a value out of its range.
The hint on the standard error shows which.",
    )
    .wrong_where("for a variable of type INTEGER (1)", "answer 0 p=200")
    .right("answer 0 p=100"),
    Explanation::new(
        210,
        "DIV_ZERO",
        "An expression divided by 0, or took the remainder of it, so it has no value. Where an
attribute is shown its line says so, as MAX_VALUE fault DIV_ZERO; in a method the run ends
there: end trapped DIV_ZERO.",
    )
    .wrong(
        "VARIABLE rate { TYPE INTEGER; }
VARIABLE p { TYPE INTEGER { MAX_VALUE 100 / rate; } }",
    )
    .right(
        "VARIABLE rate { TYPE INTEGER; }
VARIABLE p { TYPE INTEGER { MAX_VALUE rate == 0 ? 100 : 100 / rate; } }",
    ),
    Explanation::new(
        211,
        "DIV_OVERFLOW",
        "An expression divided the least number by -1, or took the remainder. The value would be
one more than the greatest number of 32 bits in a method, of 64 bits in an attribute.",
    ),
    Explanation::new(
        212,
        "BAD_SHIFT",
        "An expression shifted by less than 0, or by as many bits as there are or more: 32 in a
method, 64 in an attribute.",
    ),
    Explanation::new(
        213,
        "NO_ELEMENT",
        "An expression read the element of an array by a number that no element of it has, so it
has no value. Where an attribute is shown its line says so, as MAX_VALUE fault NO_ELEMENT;
in a method the run ends there: end trapped NO_ELEMENT.

A number below 0 is that of no element. In a method an index has 32 bits, so none reads an
element of a number over 2147483647.",
    )
    .wrong(
        "ARRAY OF VARIABLE limits { ELEMENTS { 1, lower; 2, upper; } }
VARIABLE p { TYPE INTEGER { MAX_VALUE limits[range]; } }",
    )
    .right(
        "ARRAY OF VARIABLE limits { ELEMENTS { 1, lower; 2, upper; } }
VARIABLE p { TYPE INTEGER { MAX_VALUE range == 1 || range == 2 ? limits[range] : 0; } }",
    ),
    Explanation::new(
        300,
        "SCRIPT",
        "The line of the script is none of: set NAME N, answer CODE NAME=N .., abort, or a blank
line; or it names no variable of the image. The hint on the standard error shows the word that
is wrong.",
    )
    .wrong("p = 5")
    .right("set p 5"),
    Explanation::new(301, "NO_METHOD", "The image has no method of this name."),
];
