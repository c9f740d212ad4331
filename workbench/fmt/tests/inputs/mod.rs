//! Gives tests their inputs: texts of words and signs with all that may stand between them.

use proptest::collection::vec;
use proptest::prelude::*;
use proptest::sample::select;
use proptest::test_runner::{Config, RngAlgorithm, TestRng, TestRunner};

const SEED: &str = "EDD_SEED";

const WORDS: [&str; 56] = [
    "VARIABLE",
    "MENU",
    "COLLECTION",
    "ARRAY",
    "OF",
    "LABEL",
    "HELP",
    "TYPE",
    "REQUEST",
    "REPLY",
    "RESPONSE_CODES",
    "ITEMS",
    "MEMBERS",
    "METHOD",
    "DEFINITION",
    "IF",
    "ELSE",
    "SELECT",
    "CASE",
    "DEFAULT",
    "if",
    "else",
    "while",
    "do",
    "for",
    "switch",
    "case",
    "default",
    "return",
    "level",
    "a_longer_name_of_a_variable",
    "0",
    "0x7F",
    "\"text\"",
    "\"Ä // no comment\"",
    "\"two\nlines\"",
    "{",
    "{",
    "}",
    "}",
    "(",
    "(",
    ")",
    ")",
    "[",
    "]",
    ";",
    ";",
    ",",
    ":",
    "+",
    "++",
    "-",
    "<",
    ">",
    ".",
];

const GAPS: [&str; 14] = [
    " ",
    " ",
    " ",
    " ",
    "",
    "\n",
    "\n\n\n",
    "\t",
    "\r\n",
    " /* in  two\r\n lines */",
    "/**/",
    " // to the end \n",
    "\n\n// alone\r\n",
    "\n# 12 \"f\"\n",
];

/// Texts, most of which have tokens.
pub(crate) fn texts() -> impl Strategy<Value = String> {
    let pieces = vec((select(&WORDS[..]), select(&GAPS[..])), 0..120);
    pieces.prop_map(|pieces| {
        pieces
            .into_iter()
            .map(|(word, gap)| word.to_owned() + gap)
            .collect()
    })
}

/// Runs a test on 512 texts, or as many as `PROPTEST_CASES` says. They are the same at each run, unless
/// `EDD_SEED`, a number, makes other ones.
pub(crate) fn try_texts(test: impl Fn(&str)) {
    let seed = std::env::var(SEED).map_or(0, |number| number.parse().expect("a number"));
    let mut config = Config {
        failure_persistence: None,
        ..Config::default()
    };
    config.cases = config.cases.saturating_mul(2);
    let bytes = u64::to_le_bytes(seed).repeat(4);
    let random = TestRng::from_seed(RngAlgorithm::ChaCha, &bytes);
    let ran = TestRunner::new_with_rng(config, random).run(&texts(), |text| {
        test(&text);
        Ok(())
    });
    if let Err(failure) = ran {
        panic!("{failure}, with {SEED}={seed}");
    }
}
