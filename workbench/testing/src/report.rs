//! What is reported of tests while they run.

use crate::Verdict;
use edd_cases::Misread;
use edd_outcomes::Counts;
use std::fmt;
use std::io;

/// What happened.
#[derive(Clone, Copy, Debug)]
pub enum Event<'a> {
    /// A test was run.
    Tested {
        /// Its file.
        file: &'a str,
        /// Its name.
        name: &'a str,
        /// How it ended. One that is updated has passed.
        verdict: &'a Verdict,
    },
    /// A file of tests is refused. None of its tests is run.
    Refused {
        /// The file.
        file: &'a str,
        /// Why, and at which line.
        misread: Misread,
    },
    /// What was seen was written into a file in place of what was expected.
    Updated {
        /// The file.
        file: &'a str,
    },
}

/// Takes in what happens, as it happens.
pub trait Report {
    /// Takes in an event.
    ///
    /// # Errors
    ///
    /// The output takes nothing.
    fn add(&mut self, event: Event<'_>) -> io::Result<()>;

    /// Ends, when all tests of all files were run.
    ///
    /// # Errors
    ///
    /// The output takes nothing.
    fn finish(&mut self, summary: Summary) -> io::Result<()>;
}

/// How many tests passed and failed, as the core counts them.
#[derive(Clone, Copy, Debug, PartialEq, Eq)]
pub struct Summary(pub Counts);

impl Summary {
    /// Whether no test failed and no file is refused.
    pub fn is_success(self) -> bool {
        self.0.failed == 0 && self.0.refused == 0
    }
}

impl fmt::Display for Summary {
    fn fmt(&self, formatter: &mut fmt::Formatter<'_>) -> fmt::Result {
        let Counts {
            passed,
            failed,
            left_out,
            refused,
        } = self.0;
        write!(formatter, "{passed} passed, {failed} failed")?;
        if refused > 0 {
            write!(formatter, ", {refused} refused")?;
        }
        if left_out > 0 {
            write!(formatter, ", {left_out} left out")?;
        }
        Ok(())
    }
}
