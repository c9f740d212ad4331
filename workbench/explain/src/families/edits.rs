//! What the lines of a user are refused with.

use crate::Explanation;

pub(crate) const TABLE: &[Explanation] = &[
    Explanation::new(
        280,
        "READ_ONLY",
        "The variable can't be set where `edd open` shows it: its HANDLING is READ, or the entry of
the menu through which it was reached is READ_ONLY, or an entry before that one.",
    ),
    Explanation::new(
        281,
        "OUT_OF_LIMITS",
        "The value that was entered is less than MIN_VALUE or greater than MAX_VALUE.",
    )
    .wrong_where("for a variable with MIN_VALUE 0 and MAX_VALUE 100", "101")
    .right("100"),
    Explanation::new(
        282,
        "OUT_OF_TYPE",
        "The type and size of the variable don't hold the value that was entered: an INTEGER of s
octets holds -2^(8s-1) to 2^(8s-1)-1, the other types hold 0 to 2^(8s)-1.",
    ),
    Explanation::new(
        283,
        "NO_ENUMERATOR",
        "The variable is ENUMERATED, and the value that was entered is that of none of its
enumerators, which are listed where it is edited.",
    ),
    Explanation::new(
        284,
        "NO_BIT",
        "The variable is BIT_ENUMERATED, and the value that was entered differs from the old one in
a bit that no enumerator has. Such bits stay as they are: set and clear others by +N and -N.",
    ),
    Explanation::new(
        285,
        "TRAPPED",
        "What decides on the value has none itself: a HANDLING, a limit or the list of enumerators
divides by 0, shifts too far or names an element that isn't there. The lines of the variable
say which, as: at most fault DIV_ZERO.",
    ),
    Explanation::new(
        286,
        "NO_CHOICE",
        "The method asks for one of its choices by its number, and there is none of the number that
was entered.",
    ),
    Explanation::new(
        287,
        "BAD_CODE",
        "The method asks for a code, which has 32 bits: it is from -2147483648 to 2147483647.",
    ),
];
