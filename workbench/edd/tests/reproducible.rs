//! What `compile` gives depends on the tokens alone: sources that differ in blanks, comments, marks and
//! how a number is written have the same bytes.

#![allow(clippy::expect_used, clippy::panic, reason = "a test fails by a panic")]

mod common;

use common::sources;
use core_std::alloc::Global;
use edd_lexer::lex;
use edd_lexer::token::{Token, TokenKind};
use proptest::prelude::*;

/// What may stand between two tokens: each begins with a blank, since a comment behind `/` would be another one.
const GAPS: [&str; 8] = [
    " ",
    "\n",
    "\t\r\n",
    " /* between */",
    "\n/*\n*/",
    " // up to the line's end\n",
    "\n#line 7 \"other.edd\"\n",
    "\u{b}\u{c} ",
];

/// The bytes of a token as the source has them, or an integer to the base 16.
fn spelling(text: &str, token: &Token, is_hexadecimal: bool) -> String {
    match token.kind {
        TokenKind::Integer(number) if is_hexadecimal => format!("0x{number:X}"),
        _ => {
            let start = usize::try_from(token.start).expect("a place");
            let end = usize::try_from(token.end).expect("a place");
            text.get(start..end).expect("a token").to_owned()
        }
    }
}

/// The same tokens with other gaps before, between and behind them.
fn respelled(source: &[u8], choices: &[(prop::sample::Index, bool)]) -> String {
    let text = str::from_utf8(source).expect("a text");
    let tokens = lex(Global, source).expect("an example has tokens");
    let mut choices = choices.iter().cycle();
    let mut made = String::new();
    for token in tokens.as_slice() {
        let (gap, is_hexadecimal) = choices.next().expect("choices");
        let gap: &&str = gap.get(&GAPS);
        made.push_str(gap);
        made.push_str(&spelling(text, token, *is_hexadecimal));
    }
    made.push('\n');
    made
}

/// The bytes of the image that a source has.
fn bytes_of(source: &[u8]) -> Vec<u8> {
    edd::compile(source)
        .expect("the source has an image")
        .bytes()
        .to_vec()
}

proptest! {
    #![proptest_config(ProptestConfig::with_cases(64))]

    #[test]
    fn equal_tokens_give_equal_bytes(
        choices in prop::collection::vec((any::<prop::sample::Index>(), any::<bool>()), 1..200),
    ) {
        for (name, source) in sources() {
            let other = respelled(&source, &choices);
            prop_assert_eq!(bytes_of(other.as_bytes()), bytes_of(&source), "{}: {}", name, other);
        }
    }

    /// A number that differs is seen.
    #[test]
    fn another_token_gives_other_bytes(revision in 0u32..255) {
        let source = |revision: u32| {
            format!("MANUFACTURER 1, DEVICE_TYPE 2, DEVICE_REVISION {revision}, DD_REVISION 4\n")
        };
        let next = revision.saturating_add(1);
        prop_assert_ne!(bytes_of(source(revision).as_bytes()), bytes_of(source(next).as_bytes()));
    }
}

#[test]
fn layouts_have_the_same_bytes() {
    for (name, source) in sources() {
        let laid_out = edd::format(&source).expect("an example has tokens");
        assert_eq!(bytes_of(&laid_out), bytes_of(&source), "{name}");
    }
}
