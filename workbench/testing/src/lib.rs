//! A maker's tests of descriptions. The core reads files of tests, compares what was printed with
//! what is expected, and saves files that are updated.
//!
//! [`run_tests`] runs the tests of files, and passes the result of each to a [`Report`]. [`Lines`] and
//! [`JUnit`] are the reports that the program prints. A [`TestFile`] has the places of the names in a
//! file of tests, for an editor.

mod case;
mod error;
mod junit;
mod lines;
mod pieces;
mod places;
mod printed;
mod report;
mod runner;
mod verdict;

pub use edd_cases::{Misread, TestFault};
pub use edd_files::{FileFault, Files};
pub use edd_outcomes::Counts;
pub use error::TestError;
pub use junit::JUnit;
pub use lines::Lines;
pub use places::{Begun, NameSort, TestFile, TestName, TestPlaces, begun_in};
pub use report::{Event, Report, Summary};
pub use runner::{Request, run_tests};
pub use verdict::{Expected, Mismatch, Seen, Verdict};
