//! Two programs beside each other, on the rows and on the images of their sources.

use super::damaged::SOURCE;
use super::program::run_row;
use super::random_texts::{COUNT, random_text};
use super::row::Row;
use crate::folder::TempFolder;
use crate::parallel::{self, Panicked};
use crate::program::{Finished, Program};
use crate::score::Score;
use std::collections::{BTreeMap, BTreeSet};
use std::path::{Path, PathBuf};
use std::{fs, io};

/// The commands whose rows are compared.
const COMMANDS: [&str; 5] = ["compile", "view", "show", "play", "try"];

/// The options of these commands that the proved program has not.
const OPTIONS_OF_ONE: [&str; 4] = ["--device", "--trace", "--quiet", "-q"];

/// The image that the sources of rows are compiled to.
const IMAGE: &str = "i";

/// How two programs differ.
#[derive(Debug, thiserror::Error)]
pub enum Difference {
    #[error("one: {}\nthe other: {}", .0[0], .0[1])]
    Printed(Box<[Finished; 2]>),
    #[error("they leave other bytes in {}", .0.display())]
    Files(PathBuf),
    #[error("its files: {0}")]
    Io(#[from] io::Error),
    #[error(transparent)]
    Panicked(#[from] Panicked),
}

/// The files of a folder with their bytes.
type Files = BTreeMap<PathBuf, Vec<u8>>;

/// What a program did in a folder.
#[derive(Debug)]
struct Trace {
    ran: Vec<Finished>,
    files: Files,
}

/// Compares the programs on the rows of five commands, and on the image of each source of a row and of random texts,
/// which is shown: same status, same output, same files.
pub fn compare_programs(rows: &[Row<'_>], programs: [&Program; 2], score: &mut Score) {
    let compared: Vec<_> = rows.iter().filter(|row| is_for_both(row)).collect();
    let results = parallel::map(&compared, |row| compare_row(row, programs));
    for (row, result) in compared.iter().zip(results) {
        score.row(row.title(), flatten(result).err());
    }
    let sources: BTreeSet<_> = rows.iter().filter_map(|row| row.file(SOURCE)).collect();
    let sources: Vec<_> = sources.into_iter().collect();
    let images = compare_texts(&sources, programs, score);
    let random: Vec<_> = (0..COUNT)
        .map(|number| random_text(&sources, number))
        .collect();
    let random: Vec<_> = random.iter().map(Vec::as_slice).collect();
    let more_images = compare_texts(&random, programs, score);
    score.note(format!(
        "{} rows, {} sources, {images} images, {} random texts, {more_images} images of these",
        compared.len(),
        sources.len(),
        random.len()
    ));
}

/// Whether both programs have the command of a row and its options.
fn is_for_both(row: &Row<'_>) -> bool {
    let is_option_of_one = |word: &str| {
        let name = word.split_once('=').map_or(word, |(name, _)| name);
        OPTIONS_OF_ONE.contains(&name)
    };
    row.words()
        .next()
        .is_some_and(|word| COMMANDS.contains(&word))
        && !row.words().any(is_option_of_one)
}

/// Compares the programs on the image of each text, and gives the number of images.
fn compare_texts(texts: &[&[u8]], programs: [&Program; 2], score: &mut Score) -> usize {
    let results = parallel::map(texts, |text| compare_images(text, programs));
    let mut images = 0_usize;
    for (text, result) in texts.iter().zip(results) {
        let result = flatten(result);
        images = images.saturating_add(usize::from(matches!(result, Ok(true))));
        score.row(
            format!("the image of\n{}", String::from_utf8_lossy(text)),
            result.err(),
        );
    }
    images
}

fn flatten<T>(result: Result<Result<T, Difference>, Panicked>) -> Result<T, Difference> {
    result.map_err(Difference::from).and_then(|result| result)
}

fn compare_row(row: &Row<'_>, programs: [&Program; 2]) -> Result<(), Difference> {
    let [one, other] = programs.map(|program| {
        let folder = TempFolder::new()?;
        let ran = run_row(row, program, folder.path())?;
        Ok::<_, io::Error>(Trace {
            ran: vec![ran],
            files: read_files(folder.path())?,
        })
    });
    compare(one?, other?, row.prints_library_text())
}

/// Compiles a source and shows its image. Says whether it has one.
fn compare_images(source: &[u8], programs: [&Program; 2]) -> Result<bool, Difference> {
    let [one, other] = programs.map(|program| {
        let folder = TempFolder::new()?;
        fs::write(folder.path().join(SOURCE), source)?;
        let compiled = program.run(["compile", SOURCE, IMAGE].into_iter(), folder.path(), &[])?;
        let shown = program.run(["show", IMAGE].into_iter(), folder.path(), &[])?;
        Ok::<_, io::Error>(Trace {
            ran: vec![compiled, shown],
            files: read_files(folder.path())?,
        })
    });
    let one = one?;
    let has_image = one.files.contains_key(Path::new(IMAGE));
    compare(one, other?, false).map(|()| has_image)
}

/// Compares status, output and files. The lines of the library that reads command lines differ by its version, and one
/// program may tell more beside its output.
fn compare(one: Trace, other: Trace, prints_library_text: bool) -> Result<(), Difference> {
    for (one, other) in one.ran.into_iter().zip(other.ran) {
        let has_same_lines = prints_library_text || one.printed == other.printed;
        let tells_more = one.hint.starts_with(&other.hint) || other.hint.starts_with(&one.hint);
        if one.status != other.status || !tells_more || !has_same_lines {
            return Err(Difference::Printed(Box::new([one, other])));
        }
    }
    let mut names = one.files.keys().chain(other.files.keys());
    let differing = names.find(|name| one.files.get(*name) != other.files.get(*name));
    differing.map_or(Ok(()), |name| Err(Difference::Files(name.clone())))
}

/// The plain files of a folder and those below it, and no links.
fn read_files(folder: &Path) -> io::Result<Files> {
    let mut files = Files::new();
    let mut left = vec![folder.to_owned()];
    while let Some(path) = left.pop() {
        for entry in fs::read_dir(&path)? {
            let entry = entry?;
            let kind = entry.file_type()?;
            if kind.is_dir() {
                left.push(entry.path());
            } else if kind.is_file() {
                let name = entry
                    .path()
                    .strip_prefix(folder)
                    .map(Path::to_owned)
                    .unwrap_or_default();
                files.insert(name, fs::read(entry.path())?);
            }
        }
    }
    Ok(files)
}
