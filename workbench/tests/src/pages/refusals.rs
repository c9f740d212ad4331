//! The page docs/REFUSALS.md, which is made from the explanations of the program.

use edd_explain::{Explanation, all, by_number};
use std::fmt::Write;

const TITLE: &str = "# What each refusal means

`./edd explain NUMBER` prints a section of this page.
";

/// What is on the page before the section of a number.
const PARTS: [(u32, &str); 11] = [
    (1, "## A text that has no tokens\n"),
    (10, "## A text that the grammar has no tree for\n"),
    (20, "## A description that breaks a rule\n"),
    (
        101,
        "## An image that is not valid

Each is looked for in the whole image before the next. An image that compile wrote has
none of them, so one that does was changed after, or comes from elsewhere: copy or compile
it again.
",
    ),
    (150, "## Memory that is refused\n"),
    (201, "## Values, answers and scripts\n"),
    (
        220,
        "## Octets that are not those of a message

[OCTETS](OCTETS.md) says which octets a message has. Of several faults the first of this order is
said, and nothing is set.
",
    ),
    (260, "## A call of the library for C\n"),
    (
        270,
        "## A simulated device without an answer

What the method did is printed before it: the device had no answer, and the method was aborted.
Of several faults the first is printed. [DEVICES](DEVICES.md) says what a device is.
",
    ),
    (
        290,
        "## A file of tests

`edd test` prints the file and the line before the refusal, as `valve.test:3: refused 291
UNKNOWN_LINE`. [TESTING](TESTING.md) says what a file of tests is.
",
    ),
    (300, "## A script, and the method to run\n"),
];

/// More than any number that is printed.
const NUMBERS: u32 = 1000;

/// The explanations, by their numbers.
pub fn list_explanations() -> impl Iterator<Item = &'static Explanation> {
    all().into_iter()
}

/// The page.
///
/// ```
/// let page = edd_tests::pages::write_refusals();
/// assert!(page.starts_with("# What each refusal means\n") && page.contains("\n### 10 SYNTAX\n"));
/// ```
pub fn write_refusals() -> String {
    let mut page = TITLE.to_owned();
    for number in 0..NUMBERS {
        for (_, heading) in PARTS.iter().filter(|(first, _)| *first == number) {
            // A text takes all that is written.
            write!(page, "\n{heading}").unwrap_or_default();
        }
        if let Some(explanation) = by_number(number) {
            let name = explanation.name;
            writeln!(page, "\n### {number} {name}\n\n{explanation}").unwrap_or_default();
        }
    }
    page
}
