//! What a file of tests is refused with.

use crate::Explanation;

pub(crate) const TABLE: &[Explanation] = &[
    Explanation::new(
        290,
        "NO_TEXT",
        "The line has bytes that are no text in UTF-8. Save the file of tests in UTF-8.",
    ),
    Explanation::new(
        291,
        "UNKNOWN_LINE",
        "The line begins with no word of a file of tests. The words are test, source, image, device,
language, method, show, open, steps, set, answer and abort, and the signs = ~ ! > and #. Words
are separated by spaces; a TAB is none. Behind = ~ ! and > there is a space, or nothing.",
    )
    .wrong("expect end ended
=end ended")
    .right("= end ended"),
    Explanation::new(
        292,
        "BAD_WORDS",
        "What follows the first word of the line is not what it takes: test, source, image, language
and method take a name, steps takes 0 to 1000000000, show and open take nothing.",
    )
    .wrong("test
steps many")
    .right("test the valve is calibrated
steps 5000"),
    Explanation::new(
        293,
        "BEFORE_TEST",
        "The line belongs to a test, and stands before the first one. Only source, image, device,
language and comments may stand there.",
    )
    .wrong("source valve.edd
method calibrate
test the valve is calibrated")
    .right("source valve.edd
test the valve is calibrated
method calibrate"),
    Explanation::new(
        294,
        "TWICE",
        "A test says a second time what it says once: its source or image, its device, its language,
its steps, or what it runs, which is one of method, show and open. The same holds for the lines
before the first test.",
    )
    .wrong("test the valve is calibrated
method calibrate
method show_opening")
    .right("test the valve is calibrated
method calibrate
test the opening is shown
method show_opening"),
    Explanation::new(
        295,
        "BOTH_FORMS",
        "A test has lines with = and lines with ~ or !. Those with = are all lines that are printed,
those with ~ are some of them, and those with ! are none of them, so a test has = alone, or ~ and !.",
    )
    .wrong("~ end ended
= value open_end 3900")
    .right("~ end ended
~ value open_end 3900"),
    Explanation::new(
        296,
        "MISPLACED",
        "The line says nothing in a test of this kind: a line with > is typed by a user, so it is
for open alone, and steps is for method alone.",
    ),
    Explanation::new(
        297,
        "NOTHING_TO_RUN",
        "The test that begins with this line has none of method, show and open.",
    )
    .wrong("test the valve is calibrated
= end ended")
    .right("test the valve is calibrated
method calibrate
= end ended"),
    Explanation::new(
        298,
        "NO_SOURCE",
        "No source and no image is named for the test that begins with this line, neither in it nor
before it.",
    )
    .wrong("test the valve is calibrated
method calibrate")
    .right("source valve.edd
test the valve is calibrated
method calibrate"),
    Explanation::new(
        299,
        "NO_TESTS",
        "The file has no test: no line begins with the word test. The line is the last one of the
file.",
    ),
];
