//! Why an image is not valid.

use crate::Explanation;

pub(crate) const TABLE: &[Explanation] = &[
    Explanation::new(
        101,
        "SHORT",
        "There are fewer than 56 bytes, so not even a header.",
    ),
    Explanation::new(
        102,
        "MAGIC",
        "The first four bytes are not EDI1: the file is no image. A source is shown by `edd view`
and run by `edd try`.",
    ),
    Explanation::new(
        103,
        "VERSION",
        "The version is one that this program does not know. It knows 1 and 2.",
    ),
    Explanation::new(
        104,
        "LENGTH",
        "The length that the header names is not that of the file, the sections do not end there,
there is too much code, or an image of version 2 has fewer than 64 bytes, so no whole
header. A copy that was cut off looks so.",
    ),
    Explanation::new(
        105,
        "ROW",
        "A row of a variable, a name, an attribute, an element or a string is wrong: its type,
size, kind, item, array or variable does not exist, rows do not rise, or parts leave gaps.
Or a zero of the header is not zero.",
    ),
    Explanation::new(
        106,
        "NAME",
        "The name of an item is no name of the language.",
    ),
    Explanation::new(
        107,
        "TEXT",
        "A string is no string: a text is not UTF-8, or a code is none.",
    ),
    Explanation::new(
        108,
        "INSTRUCTION",
        "The code of an attribute or a method is not a row of whole instructions that may be in
it. Those of arrays and of abort methods may be in version 2 alone.",
    ),
    Explanation::new(
        109,
        "JUMP",
        "A jump leads to no instruction, or back in an attribute.",
    ),
    Explanation::new(
        110,
        "DEPTH",
        "An instruction would find too few operands or too many.",
    ),
    Explanation::new(
        111,
        "REFERENCE",
        "An instruction names a variable, an array, a string, an item or a local that does not
exist, or adds an abort method that does not exist or has no body.",
    ),
];
