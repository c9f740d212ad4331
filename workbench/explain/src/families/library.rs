//! Refusals of the library for C.

use crate::Explanation;

pub(crate) const TABLE: &[Explanation] = &[
    Explanation::new(
        150,
        "MEMORY",
        r#"A call of the library for C needed memory, and the program's function for it had none.
Nothing was changed, and the same call may go well later. The program edd prints "no memory"."#,
    ),
    Explanation::new(
        260,
        "OTHER_IMAGE",
        "The numbers that edd_load wrote are not those of the bytes that came with them, or the
length is not that of the image. Load the bytes first, keep the numbers beside them, and
give both, with the length that the image has, to each call.",
    ),
    Explanation::new(
        261,
        "NO_ROOM",
        "An array of the caller has too little room for records, octets or sets, and the call says how
much it needs; or the values after edd_play have not one place for each variable.",
    ),
    Explanation::new(
        262,
        "NO_SESSION",
        "An edd_session is none of this image under these values: it was damaged, it is of
another image, or a value was changed to one out of its variable's range. Start the method
anew with edd_start.",
    ),
    Explanation::new(
        263,
        "NO_SETTINGS",
        "An answer for edd_reply, or the answers for edd_play together, say that they have more
settings than setting_count is. Nothing was changed. Give a list that has all of them.",
    ),
];
