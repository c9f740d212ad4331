//! Rows by the program itself, over real files.

use super::memory::{ENDLESS, PAUSE};
use super::row::{INPUT, Row};
use super::trial::wanted_hint;
use super::{read_tables, select_rows};
use crate::error::PlayError;
use crate::folder::TempFolder;
use crate::options::Options;
use crate::parallel::{self, Panicked};
use crate::program::{Finished, Program};
use crate::score::Score;
use std::fs;
use std::io;
use std::os::unix::fs::symlink;
use std::path::Path;

/// What is wrong with a row of the program.
#[derive(Debug, thiserror::Error)]
pub enum ProgramFault {
    #[error("wanted: {wanted}\nprinted: {printed}")]
    Differs {
        wanted: Box<Finished>,
        printed: Box<Finished>,
    },
    #[error("it saved other bytes: {0:02X?}")]
    Saved(Option<Vec<u8>>),
    #[error("its files: {0}")]
    Files(#[from] io::Error),
    #[error(transparent)]
    Panicked(#[from] Panicked),
}

/// Plays the rows by the program of the options, or compares that with another one.
pub fn play_program(options: &Options, score: &mut Score) -> Result<(), PlayError> {
    let path = options
        .program
        .as_deref()
        .ok_or(PlayError::NoProgram("program"))?;
    let program = Program::new(path).map_err(PlayError::in_file(path))?;
    let table = read_tables(options)?;
    let rows = select_rows(options, &table)?;
    let (rows, left): (Vec<_>, Vec<_>) = rows.into_iter().partition(has_real_files);
    if let Some(other) = options.beside.as_deref() {
        let other = Program::new(other).map_err(PlayError::in_file(other))?;
        super::compare_programs(&rows, [&program, &other], score);
        return Ok(());
    }
    let results = parallel::map(&rows, |row| play_row(row, &program));
    let mut by_status = 0_usize;
    for (row, result) in rows.iter().zip(results) {
        let result = result.map_err(ProgramFault::from).and_then(|result| result);
        by_status = by_status.saturating_add(usize::from(matches!(result, Ok(false))));
        score.row(row.title(), result.err());
    }
    score.note(format!(
        "{by_status} rows by status alone: their lines are of another version of clap"
    ));
    score.note(format!(
        "{} rows left out: they have a file at the root, or pauses in what is typed",
        left.len()
    ));
    Ok(())
}

/// Whether all its files can be real ones in a folder. Pauses are reads that give nothing, as those of no pipe do.
fn has_real_files(row: &Row<'_>) -> bool {
    row.files.iter().all(|file| {
        if file.name == INPUT {
            !file.bytes.contains(&PAUSE)
        } else {
            !file.name.starts_with('/')
        }
    })
}

/// Puts the files of a row into a folder, and runs the program on them.
pub(super) fn run_row(row: &Row<'_>, program: &Program, folder: &Path) -> io::Result<Finished> {
    for file in row.files.iter().filter(|file| file.name != INPUT) {
        let path = folder.join(&file.name);
        path.parent().map_or(Ok(()), fs::create_dir_all)?;
        fs::write(path, &file.bytes)?;
    }
    if row.words().any(|word| word == ENDLESS) {
        symlink("/dev/zero", folder.join(ENDLESS))?;
    }
    program.run(row.words(), folder, row.file(INPUT).unwrap_or_default())
}

/// Says whether the lines were compared too, which those of another version of the library are not.
fn play_row(row: &Row<'_>, program: &Program) -> Result<bool, ProgramFault> {
    let folder = TempFolder::new()?;
    let printed = run_row(row, program, folder.path())?;
    let has_lines = printed.printed == row.lines.as_bytes();
    let wanted = Finished {
        status: Some(i32::from(row.status)),
        printed: row.lines.clone().into_bytes(),
        hint: wanted_hint(row).into_bytes(),
    };
    let has_status = printed.status == wanted.status && printed.hint == wanted.hint;
    if !has_status || !(has_lines || row.prints_library_text()) {
        return Err(ProgramFault::Differs {
            wanted: Box::new(wanted),
            printed: Box::new(printed),
        });
    }
    let saved = row.saved.as_ref().map(|_| read_saved(row, folder.path()));
    if saved.is_some() && saved.as_ref().map(Option::as_ref) != Some(row.saved.as_ref()) {
        return Err(ProgramFault::Saved(saved.flatten()));
    }
    Ok(has_lines)
}

/// What the last file of the command line holds; no bytes where it holds what it held before.
fn read_saved(row: &Row<'_>, folder: &Path) -> Option<Vec<u8>> {
    let name = row.words().filter(|word| !word.starts_with('-')).last()?;
    let bytes = fs::read(folder.join(name)).ok()?;
    if row.file(name) == Some(&bytes) {
        Some(Vec::new())
    } else {
        Some(bytes)
    }
}
