//! What the one who starts a test may say.

/// The number in a variable of the environment.
pub(crate) fn number(name: &str) -> Option<u64> {
    let given = std::env::var(name).ok()?;
    Some(given.parse().expect("a number"))
}
