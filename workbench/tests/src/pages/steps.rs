//! Steps over real files in a folder, and over files and a disk in memory.

use super::disk::{IDENTITY, save_each};
use super::one_file;
use crate::program::{Finished, Program};
use std::fs::{self, Metadata, Permissions};
use std::io::{self, ErrorKind};
use std::os::unix::fs::{PermissionsExt, symlink};
use std::path::Path;

/// How an image begins.
const IMAGE: &[u8] = b"EDI1";

/// The bits of a file's mode that say who may do what.
const PERMISSIONS: u32 = 0o777;

/// Why a step can't be taken.
#[derive(Debug, thiserror::Error)]
pub enum StepError {
    #[error("it is no step")]
    Unknown,
    #[error("{0}")]
    Io(#[from] io::Error),
}

/// Takes the step of a line, and gives the lines that it prints. `folder NAME`, `text NAME TEXT`, `copy NAME FILE`,
/// `soft NAME TARGET`, `hard NAME FILE` and `mode NAME DIGITS` make or change files. `run` and `pipe` run the program,
/// `hint` runs it and gives what is on the standard error, and `show` and `list` say what is there. `one_file` runs it on a file in memory, and `save` and `save_opened` write
/// to a disk in memory of which each call fails in turn.
pub fn run_step(line: &str, program: &Program, folder: &Path) -> Result<String, StepError> {
    let (kind, words) = line.split_once(' ').unwrap_or((line, ""));
    match kind {
        "run" => Ok(format_finished(&program.run(
            words.split_ascii_whitespace(),
            folder,
            &[],
        )?)),
        "hint" => {
            let ended = program.run(words.split_ascii_whitespace(), folder, &[])?;
            Ok(String::from_utf8_lossy(&ended.hint).into_owned())
        }
        "pipe" => run_into_pipe(words, program, folder),
        "show" => show(&folder.join(words)),
        "list" => list(&folder.join(words)),
        "one_file" => one_file::compile(words).ok_or(StepError::Unknown),
        "save" => Ok(save_each(words, &[])),
        "save_opened" => Ok(save_each(words, &[IDENTITY])),
        _ => change(kind, words, program, folder).map(|()| String::new()),
    }
}

fn format_finished(ended: &Finished) -> String {
    match ended.status {
        Some(status) => format!("{}status {status}\n", ended.text()),
        None => format!("{}ended by a signal\n", ended.text()),
    }
}

fn run_into_pipe(words: &str, program: &Program, folder: &Path) -> Result<String, StepError> {
    let (ended, taken) = program.run_into_pipe(words.split_ascii_whitespace(), folder)?;
    Ok(format!(
        "{}the pipe took {} bytes\n",
        format_finished(&ended),
        taken.len()
    ))
}

/// Makes or changes a file, which is given to the user that the program runs as.
fn change(kind: &str, words: &str, program: &Program, folder: &Path) -> Result<(), StepError> {
    let (name, rest) = words.split_once(' ').unwrap_or((words, ""));
    let path = folder.join(name);
    match kind {
        "folder" => fs::create_dir(&path)?,
        "text" => fs::write(&path, rest)?,
        "copy" => fs::copy(folder.join(rest), &path).map(|_| ())?,
        "soft" => symlink(rest, &path)?,
        "hard" => fs::hard_link(folder.join(rest), &path)?,
        "mode" => {
            let mode = u32::from_str_radix(rest, 8).map_err(|_| StepError::Unknown)?;
            fs::set_permissions(&path, Permissions::from_mode(mode))?;
        }
        _ => return Err(StepError::Unknown),
    }
    Ok(program.hand_over(&path)?)
}

/// Says where the links of a name lead, if it is one, and what is there.
fn show(path: &Path) -> Result<String, StepError> {
    let link = fs::read_link(path).map_or(String::new(), |target| {
        format!("link to {}: ", target.display())
    });
    let found = match fs::metadata(path) {
        Ok(found) => show_found(path, &found)?,
        Err(error) if error.kind() == ErrorKind::NotFound => "nothing".to_owned(),
        Err(error) => return Err(error.into()),
    };
    Ok(format!("{link}{found}\n"))
}

/// Says the permissions of a plain file, and what it holds: an image, or a text.
fn show_found(path: &Path, found: &Metadata) -> io::Result<String> {
    if found.is_dir() {
        return Ok("a folder".to_owned());
    }
    if !found.is_file() {
        return Ok("no plain file".to_owned());
    }
    let bytes = fs::read(path)?;
    let content = match str::from_utf8(&bytes) {
        _ if bytes.starts_with(IMAGE) => format!("an image of {} bytes", bytes.len()),
        Ok(text) => format!("text {text}"),
        Err(_) => format!("{} bytes", bytes.len()),
    };
    Ok(format!(
        "{:o} {content}",
        found.permissions().mode() & PERMISSIONS
    ))
}

/// The names in a folder, in order.
fn list(path: &Path) -> Result<String, StepError> {
    let names = fs::read_dir(path)?
        .map(|entry| entry.map(|entry| entry.file_name().to_string_lossy().into_owned()));
    let mut names = names.collect::<io::Result<Vec<_>>>()?;
    names.sort();
    Ok(names.join(" ") + "\n")
}

#[cfg(test)]
mod tests {
    use super::*;
    use crate::folder::TempFolder;

    #[test]
    fn steps_make_files_and_show_them() {
        let folder = TempFolder::new().unwrap();
        let program = Program::this_player().unwrap();
        let step = |line| run_step(line, &program, folder.path()).unwrap();
        assert_eq!(
            step("folder new")
                + &step("text new/i an image")
                + &step("soft new/l i")
                + &step("mode new/i 640"),
            ""
        );
        assert_eq!(step("show new/i"), "640 text an image\n");
        assert_eq!(step("show new/l"), "link to i: 640 text an image\n");
        assert_eq!(
            step("show new") + &step("show none") + &step("list new"),
            "a folder\nnothing\ni l\n"
        );
        assert!(matches!(
            run_step("jump", &program, folder.path()),
            Err(StepError::Unknown)
        ));
    }
}
