//! What was played, and what of it is wrong.

use std::fmt::{self, Display};
use std::time::Instant;

/// Counts rows by their outcome and prints each failure when it is found.
///
/// ```
/// use edd_tests::score::Score;
/// let mut score = Score::default();
/// score.row("a row", None::<&str>);
/// score.row("another row", Some("status 1"));
/// assert_eq!(score.to_string(), "1 passed, 1 failed");
/// ```
#[derive(Debug, Default)]
pub struct Score {
    passed: usize,
    failed: usize,
    notes: Vec<String>,
}

impl Score {
    /// Counts a row. `fault` says what is wrong with it, if anything is.
    pub fn row(&mut self, name: impl Display, fault: Option<impl Display>) {
        match fault {
            None => self.passed = self.passed.saturating_add(1),
            Some(fault) => {
                self.failed = self.failed.saturating_add(1);
                println!("WRONG {name}\n{fault}");
            }
        }
    }

    /// Keeps a line about the suite, which is printed after it.
    pub fn note(&mut self, line: impl Display) {
        self.notes.push(line.to_string());
    }

    /// Plays a suite, and prints how many rows it had, how many failed and how long it took.
    pub fn suite<E>(
        &mut self,
        name: &str,
        play: impl FnOnce(&mut Score) -> Result<(), E>,
    ) -> Result<(), E> {
        let started = Instant::now();
        let mut own = Score::default();
        let played = play(&mut own);
        let seconds = started.elapsed().as_secs_f64();
        println!(
            "{name}: {} rows, {} failed ({seconds:.1} s)",
            own.passed.saturating_add(own.failed),
            own.failed
        );
        own.notes.iter().for_each(|note| println!("    {note}"));
        self.passed = self.passed.saturating_add(own.passed);
        self.failed = self.failed.saturating_add(own.failed);
        played
    }

    pub fn is_passed(&self) -> bool {
        self.failed == 0 && self.passed > 0
    }
}

impl Display for Score {
    fn fmt(&self, formatter: &mut fmt::Formatter<'_>) -> fmt::Result {
        write!(formatter, "{} passed, {} failed", self.passed, self.failed)
    }
}
