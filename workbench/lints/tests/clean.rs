//! Descriptions as a careful maker writes them have no warning.

mod clean_parts;

use clean_parts::{Device, device};
use core_std::alloc::Global;
use edd_compiler::checked_of;
use edd_lexer::lex;
use edd_lints::{Levels, find};
use proptest::prelude::*;
use proptest::test_runner::{Config, TestRng, TestRunner};

/// The warnings of a text, or that it is refused.
fn warnings_of(text: &str) -> Vec<String> {
    let bytes = text.as_bytes();
    let (Ok(tokens), Ok(description)) = (lex(Global, bytes), checked_of(Global, bytes)) else {
        return vec!["refused".to_owned()];
    };
    let warnings = find(bytes, &tokens, &description, &Levels::default());
    let written = warnings.iter().map(|warning| {
        let line = text.get(..warning.span.start).unwrap_or_default();
        let line = line.matches('\n').count();
        format!(
            "{} at line {line}: {}",
            warning.kind.lint().name(),
            warning.kind
        )
    });
    written.collect()
}

#[test]
fn a_clean_description_has_no_warning() {
    let config = Config {
        failure_persistence: None,
        ..Config::with_cases(500)
    };
    let rng = TestRng::deterministic_rng(config.rng_algorithm);
    let outcome = TestRunner::new_with_rng(config, rng).run(&device(), |device: Device| {
        let text = device.to_string();
        let warnings = warnings_of(&text);
        prop_assert!(warnings.is_empty(), "{warnings:#?}\n{text}");
        Ok(())
    });
    assert!(outcome.is_ok(), "{outcome:?}");
}
