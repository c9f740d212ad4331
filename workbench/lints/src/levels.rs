//! What is done where a lint finds something.

use crate::lint::{LINTS, Lint};
use std::collections::BTreeMap;

/// What is done where a lint finds something.
#[derive(Clone, Copy, Debug, PartialEq, Eq, Hash)]
pub enum Level {
    /// Nothing is reported.
    Allow,
    /// It is reported.
    Warn,
    /// It is reported, and the source is refused by `check`.
    Deny,
}

/// The levels of all lints.
///
/// ```
/// use edd_lints::{Level, Levels, Lint};
///
/// let mut levels = Levels::default();
/// assert_eq!(levels.level(Lint::UnusedItem), Level::Warn);
/// assert_eq!(levels.level(Lint::UnreachedMenu), Level::Allow);
/// levels.set(Lint::UnusedItem, Level::Deny);
/// assert_eq!(levels.level(Lint::UnusedItem), Level::Deny);
/// ```
#[derive(Clone, Debug, Default, PartialEq, Eq)]
pub struct Levels {
    set: BTreeMap<Lint, Level>,
}

impl Levels {
    /// Levels with which each lint warns, also those that are off unless asked for.
    pub fn warn_all() -> Levels {
        Levels {
            set: LINTS.iter().map(|lint| (*lint, Level::Warn)).collect(),
        }
    }

    /// Sets the level of a lint.
    pub fn set(&mut self, lint: Lint, level: Level) {
        self.set.insert(lint, level);
    }

    /// The level of a lint: the one that was set, or its own.
    pub fn level(&self, lint: Lint) -> Level {
        let set = self.set.get(&lint).copied();
        set.unwrap_or_else(|| lint.level())
    }
}
