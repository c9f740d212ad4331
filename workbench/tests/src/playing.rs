//! Plays rows: each is answered, and the answer is compared with the one that is wanted.

use crate::score::Score;
use crate::table::{Part, Row};
use edd_plain_std::alloc::AllocError;
use std::panic::{AssertUnwindSafe, catch_unwind};

/// Why a row has no answer.
#[derive(Debug, Clone, Copy, PartialEq, Eq, thiserror::Error)]
pub enum NoAnswer {
    #[error("no part is of this kind")]
    Kind,
    #[error("this is no such row: {0}")]
    Row(&'static str),
    #[error("out of memory")]
    Memory(#[from] AllocError),
}

/// What is wrong with a row.
#[derive(Debug, Clone, PartialEq, Eq, thiserror::Error)]
pub enum Fault {
    #[error("{}", difference(wanted, came))]
    Answer { wanted: String, came: String },
    #[error("  {0}")]
    NoAnswer(#[from] NoAnswer),
    #[error("  a call panicked")]
    Panic,
}

/// Returns the lines that differ, or both texts where their lines do not pair up.
fn difference(wanted: &str, came: &str) -> String {
    let shown = |(wanted, came): (&str, &str)| format!("  wanted {wanted}\n  came   {came}");
    if wanted.split('\n').count() != came.split('\n').count() {
        return shown((wanted, came));
    }
    let pairs = wanted.split('\n').zip(came.split('\n'));
    let differing = pairs.filter(|(wanted, came)| wanted != came).map(shown);
    differing.collect::<Vec<_>>().join("\n")
}

/// Makes a call that may panic.
///
/// # Errors
///
/// Returns why there is no answer, or that the call panicked.
pub fn attempt<T>(call: impl FnOnce() -> Result<T, NoAnswer>) -> Result<T, Fault> {
    match catch_unwind(AssertUnwindSafe(call)) {
        Ok(answer) => answer.map_err(Fault::NoAnswer),
        Err(_) => Err(Fault::Panic),
    }
}

/// Plays a row, and returns what is wrong with it.
fn fault_of(row: &Row<'_>, answer: impl Fn(&Row<'_>) -> Result<String, NoAnswer>) -> Option<Fault> {
    match attempt(|| answer(row)) {
        Ok(came) if came == row.wanted => None,
        Ok(came) => Some(Fault::Answer {
            wanted: row.wanted.clone(),
            came,
        }),
        Err(fault) => Some(fault),
    }
}

/// Plays the rows of a part, and returns how many there are.
///
/// A line that belongs to no row counts as a row that failed, and none of the part is played.
pub fn play_rows(
    part: &Part<'_>,
    score: &mut Score,
    answer: impl Fn(&Row<'_>) -> Result<String, NoAnswer>,
) -> usize {
    let rows = match part.rows() {
        Ok(rows) => rows,
        Err(stray) => {
            score.row(part.name, Some(stray));
            return 0;
        }
    };
    for row in &rows {
        let shown = format!("{} {}", row.asked, row.text);
        let name = format_args!("{}, line {}: {}", part.name, row.line, shown.trim_start());
        score.row(name, fault_of(row, &answer));
    }
    rows.len()
}

#[cfg(test)]
mod tests {
    use super::*;
    use crate::table::parts;

    fn played(table: &str) -> (usize, Score) {
        let mut score = Score::default();
        let part = parts(table).next().unwrap();
        let count = play_rows(&part, &mut score, |row| match row.text.as_str() {
            "panic" => panic!("as it was told"),
            "none" => Err(NoAnswer::Memory(AllocError)),
            text => Ok(text.to_uppercase()),
        });
        (count, score)
    }

    #[test]
    fn rows_pass_with_the_answer_that_is_wanted() {
        let (count, score) = played("@a b\n- x -> X\n- y -> Y\n");
        assert_eq!(
            (count, score.to_string().as_str()),
            (2, "2 passed, 0 failed")
        );
    }

    #[test]
    fn other_answers_and_panics_fail_alone() {
        let (count, score) = played("@a b\n- x -> Y\n- panic -> PANIC\n- none -> NONE\n- y -> Y\n");
        assert_eq!(
            (count, score.to_string().as_str()),
            (4, "1 passed, 3 failed")
        );
    }

    #[test]
    fn a_stray_line_fails() {
        let (count, score) = played("@a b\n- x -> X\n+ y -> Y\n");
        assert_eq!(
            (count, score.to_string().as_str()),
            (0, "0 passed, 1 failed")
        );
    }

    #[test]
    fn only_lines_that_differ_are_shown() {
        let fault = |wanted: &str, came: &str| Fault::Answer {
            wanted: wanted.into(),
            came: came.into(),
        };
        assert_eq!(
            fault("a\nb\nc", "a\nx\ny").to_string(),
            "  wanted b\n  came   x\n  wanted c\n  came   y"
        );
        assert_eq!(fault("a", "a\nb").to_string(), "  wanted a\n  came   a\nb");
        assert_eq!(fault("a", "a\n").to_string(), "  wanted a\n  came   a\n");
    }
}
