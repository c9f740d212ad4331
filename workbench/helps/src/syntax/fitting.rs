//! What fits where a token does not: what the grammar takes in its place.

use super::change::{Change, Workshop};

/// How many of them are named.
const MOST: usize = 4;

/// Something that fits, by how it could be written.
#[derive(Clone, Copy, Debug, PartialEq, Eq)]
pub struct Fitting(&'static str);

/// One of the things that fit, which stands for what has its own word too.
const ITEM: &str = "VARIABLE";

const NAME: &str = "x";

const NUMBER: &str = "1";

const TEXT: &str = "\"\"";

const SEMICOLON: &str = ";";

const OPEN: &str = "{";

/// After a value.
const OPERATOR: &str = "+";

/// Before a value alone.
const SIGN: &str = "!";

const STATEMENT: &str = "statement";

const VALUE: &str = "value";

/// Where any name fits these are names.
const WORDS: [&str; 9] = [
    "TRUE",
    "FALSE",
    "READ",
    "WRITE",
    "READ & WRITE",
    "SUCCESS",
    "READ_ONLY",
    "INFO",
    "INDEX",
];

const OTHERS: [&str; 25] = [
    "LABEL",
    "NUMBER",
    "TYPE",
    "DEFINITION",
    "MAX_VALUE",
    "REQUEST",
    "REPLY",
    "RESPONSE_CODES",
    "OF",
    "DEVICE_TYPE",
    "DEVICE_REVISION",
    "DD_REVISION",
    "MANUFACTURER",
    "CASE",
    "DEFAULT",
    "COMMAND",
    "IF",
    "while",
    "}",
    "(",
    ")",
    "]",
    ",",
    ":",
    "=",
];

impl Fitting {
    /// What it is called.
    pub fn called(self) -> &'static str {
        match self.0 {
            ITEM => "an item such as VARIABLE",
            NAME => "a name",
            NUMBER => "a number",
            TEXT => "a text",
            OPERATOR => "an operator",
            STATEMENT => "a statement",
            VALUE => "a value",
            "SUCCESS" => {
                "SUCCESS, MISC_WARNING, DATA_ENTRY_WARNING, DATA_ENTRY_ERROR, MODE_ERROR, \
                 PROCESS_ERROR or MISC_ERROR"
            }
            "READ_ONLY" => "READ_ONLY, HIDDEN, REVIEW or DISPLAY_VALUE",
            "LABEL" => "an attribute such as LABEL",
            "MAX_VALUE" => "an option such as MAX_VALUE",
            itself => itself,
        }
    }
}

/// What fits in the place of a token; nothing where that is too much or not known.
pub(super) fn what_fits(number: usize, workshop: &mut Workshop) -> Option<Vec<Fitting>> {
    let mut takes = |spelling| number < workshop.reached(number, Change::Instead(spelling));
    let fitting = all_that_fits(&mut takes);
    (1..=MOST).contains(&fitting.len()).then_some(fitting)
}

// All that fits. One name stands for what is an item, a statement or a value.
fn all_that_fits(takes: &mut impl FnMut(&'static str) -> bool) -> Vec<Fitting> {
    if takes(ITEM) {
        return vec![Fitting(ITEM)];
    }
    let has_name = takes(NAME);
    let has_number = takes(NUMBER);
    let has_end = takes(SEMICOLON);
    let has_brace = takes(OPEN);
    if has_name && has_number && has_end && has_brace {
        return vec![Fitting(STATEMENT)];
    }
    if has_name && has_number && takes(SIGN) {
        return vec![Fitting(VALUE)];
    }
    let mut fitting = Vec::new();
    if has_name {
        fitting.push(NAME);
    } else {
        fitting.extend(WORDS.into_iter().filter(|word| takes(word)));
    }
    fitting.extend(has_number.then_some(NUMBER));
    fitting.extend([TEXT, OPERATOR].into_iter().filter(|it| takes(it)));
    fitting.extend(has_end.then_some(SEMICOLON));
    fitting.extend(has_brace.then_some(OPEN));
    fitting.extend(OTHERS.into_iter().filter(|word| takes(word)));
    fitting.into_iter().map(Fitting).collect()
}
