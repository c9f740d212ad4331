//! The table of the lints: each has a row, finds something in its example, and nothing in its
//! counterexample.

use core_std::alloc::Global;
use edd_compiler::checked_of;
use edd_lexer::lex;
use edd_lints::{LINTS, Level, Levels, Lint, find};

const HEAD: &str = "MANUFACTURER 1, DEVICE_TYPE 2, DEVICE_REVISION 3, DD_REVISION 4\n";

/// The lints that find something in items, each as often as it does; or the text that is refused.
fn found_in(items: &str, levels: &Levels) -> Result<Vec<Lint>, String> {
    let text = format!("{HEAD}{items}\n");
    let tokens = lex(Global, text.as_bytes()).map_err(|_| text.clone())?;
    let description = checked_of(Global, text.as_bytes()).map_err(|_| text.clone())?;
    let warnings = find(text.as_bytes(), &tokens, &description, levels);
    Ok(warnings.iter().map(|warning| warning.kind.lint()).collect())
}

/// The same of the lints that are on.
fn warned_of(items: &str) -> Result<Vec<Lint>, String> {
    found_in(items, &Levels::default())
}

/// The same of all lints.
fn lints_of(items: &str) -> Result<Vec<Lint>, String> {
    found_in(items, &Levels::warn_all())
}

#[test]
fn each_lint_has_a_row_of_its_own() {
    for lint in LINTS {
        assert_eq!(Lint::from_name(lint.name()), Some(lint), "{lint:?}");
        assert!(
            !lint.summary().is_empty() && !lint.details().is_empty(),
            "{lint:?}"
        );
        assert_ne!(lint.level(), Level::Deny);
    }
    assert_eq!(Lint::from_name("all"), None);
}

#[test]
fn each_lint_finds_something_in_its_example() {
    for lint in LINTS {
        let found = lints_of(lint.example()).expect("it is accepted");
        assert!(
            found.contains(&lint),
            "{lint:?} in {}: {found:?}",
            lint.example()
        );
    }
}

#[test]
fn each_lint_finds_nothing_in_its_counterexample() {
    for lint in LINTS {
        let found = lints_of(lint.counterexample()).expect("it is accepted");
        assert!(
            !found.contains(&lint),
            "{lint:?} in {}",
            lint.counterexample()
        );
    }
}

#[test]
fn an_example_has_one_mistake() {
    // Nine abort methods are written as one that is added nine times.
    let all = LINTS.into_iter();
    for lint in all.filter(|lint| *lint != Lint::AbortMethodLimit) {
        let found = warned_of(lint.example()).expect("it is accepted");
        assert!(
            found.iter().all(|other| *other == lint),
            "{lint:?}: {found:?}"
        );
    }
}
