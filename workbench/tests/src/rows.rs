//! Rows: runs of the program that were worked out by hand.

mod beside;
mod damage;
mod damaged;
mod fault;
mod images;
mod memory;
mod program;
mod random_texts;
mod row;
mod run;
mod trial;

pub use beside::compare_programs;
pub use damage::Dice;
pub use damaged::Tried;
pub use fault::{Fault, ImageFault};
pub use images::Images;
pub use memory::{Call, Calls, Failing};
pub use program::play_program;
pub use row::{File, Row, RowError, parse_rows};
pub use run::Run;

use crate::error::PlayError;
use crate::options::Options;
use crate::parallel;
use crate::score::Score;
use std::collections::BTreeSet;
use std::fs;
use std::iter::Sum;
use std::ops::Add;

/// The names of the files of rows, in the order in which they are played.
const ORDER: &str = "rows.order";

/// The stored images.
const IMAGES: &str = "images";

/// How many damaged files are run at least, and how many of these runs end with status 0 at least.
const LEAST_DAMAGED: Tried = Tried {
    runs: 18_000,
    done: 700,
};

const CALLS: [Call; 4] = [Call::Read, Call::Open, Call::Save, Call::Write];

/// What was counted while a row was played.
#[derive(Debug, Clone, Copy, Default, PartialEq, Eq)]
pub struct Counts {
    /// Runs in which a call failed.
    failing: usize,
    damaged: Tried,
    images: usize,
    /// Rows whose lines are of another version of the library.
    by_status: usize,
}

impl Add for Counts {
    type Output = Counts;

    fn add(self, other: Counts) -> Counts {
        Counts {
            failing: self.failing.saturating_add(other.failing),
            damaged: Tried {
                runs: self.damaged.runs.saturating_add(other.damaged.runs),
                done: self.damaged.done.saturating_add(other.damaged.done),
            },
            images: self.images.saturating_add(other.images),
            by_status: self.by_status.saturating_add(other.by_status),
        }
    }
}

impl Sum for Counts {
    fn sum<I: Iterator<Item = Counts>>(counts: I) -> Counts {
        counts.fold(Counts::default(), Add::add)
    }
}

/// Reads the tables of rows, one after the other.
pub fn read_tables(options: &Options) -> Result<String, PlayError> {
    options
        .read_table(ORDER)?
        .lines()
        .map(|name| options.read_table(name))
        .collect()
}

/// The rows of a table that are to be played.
pub fn select_rows<'t>(options: &Options, table: &'t str) -> Result<Vec<Row<'t>>, PlayError> {
    let selected =
        |row: &Result<Row<'_>, _>| row.as_ref().map_or(true, |row| options.selects(row.text));
    let rows = parse_rows(table).filter(selected);
    rows.map(|row| {
        row.map_err(|(row, error)| PlayError::Row {
            row: row.to_owned(),
            error,
        })
    })
    .collect()
}

/// Plays the rows over files in memory: as they are, with each opening, read, saving and write failing in turn, and
/// with damaged files. The image of each row's source is compared with the stored one.
pub fn play(options: &Options, score: &mut Score) -> Result<(), PlayError> {
    let table = read_tables(options)?;
    let rows = select_rows(options, &table)?;
    if options.renew && options.plays_all() {
        let path = options.tables.join(IMAGES);
        fs::write(&path, images::write_table(rows.iter())).map_err(PlayError::in_file(&path))?;
    }
    let stored = options.read_table(IMAGES)?;
    let images = Images::parse(&stored).map_err(PlayError::Images)?;
    let results = if options.plays_all() {
        parallel::map(&rows, |row| play_row(row, &images))
    } else {
        parallel::map(&rows, play_once)
    };
    let mut all = Vec::new();
    for (row, result) in rows.iter().zip(results) {
        let result = result.map_err(Fault::from).and_then(|result| result);
        all.extend(result.as_ref().ok());
        score.row(row.title(), result.err());
    }
    if options.plays_all() {
        find_lost_images(&rows, &images, score);
        note_counts(all.into_iter().sum(), score);
    }
    Ok(())
}

fn play_once(row: &Row<'_>) -> Result<Counts, Fault> {
    trial::run_as_it_is(row).map(|run| count_run(row, &run))
}

fn count_run(row: &Row<'_>, run: &Run) -> Counts {
    Counts {
        by_status: usize::from(run.printed != row.lines.as_bytes()),
        ..Counts::default()
    }
}

fn play_row(row: &Row<'_>, images: &Images<'_>) -> Result<Counts, Fault> {
    let whole = trial::run_as_it_is(row)?;
    let mut counts = count_run(row, &whole);
    for call in CALLS {
        let failed = trial::run_failing(row, &whole, call)?;
        counts.failing = counts
            .failing
            .saturating_add(usize::try_from(failed).unwrap_or(usize::MAX));
    }
    counts.images = usize::from(images.compare(row)?);
    counts.damaged = damaged::try_damaged(row)?;
    Ok(counts)
}

/// Each stored image has its row.
fn find_lost_images(rows: &[Row<'_>], images: &Images<'_>, score: &mut Score) {
    let titles: BTreeSet<_> = rows.iter().map(Row::title).collect();
    for title in images.titles().filter(|title| !titles.contains(*title)) {
        score.row(title, Some("its image is stored, and it is no row"));
    }
}

fn note_counts(counts: Counts, score: &mut Score) {
    let Tried { runs, done } = counts.damaged;
    let is_enough = runs >= LEAST_DAMAGED.runs && done >= LEAST_DAMAGED.done;
    let least = format!(
        "wanted: {} and {} at least",
        LEAST_DAMAGED.runs, LEAST_DAMAGED.done
    );
    score.row(
        format!("{runs} damaged files, of which {done} pass"),
        (!is_enough).then_some(least),
    );
    score.note(format!(
        "{} runs with a failing call, {} images compared",
        counts.failing, counts.images
    ));
    score.note(format!("{runs} damaged files, of which {done} pass"));
    score.note(format!(
        "{} rows by status alone: their lines are of another version of clap",
        counts.by_status
    ));
}
