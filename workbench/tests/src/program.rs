//! Runs of the program `edd` as a process of its own.

use std::fmt::{self, Display};
use std::fs::{self, Permissions};
use std::io::{self, PipeReader, Read, Write};
use std::os::unix::fs::{MetadataExt, PermissionsExt, chown, fchown};
use std::os::unix::process::CommandExt;
use std::path::{Path, PathBuf};
use std::process::{Command, Stdio};
use std::thread;

/// The first word with which the player is the program `edd` itself.
pub const AS_EDD: &str = "--as-edd";

/// The user that tests of closed files run as. Nothing is closed to root.
const NOBODY: u32 = 65534;

/// Runs the program `edd` with these words after its name, over the system's files.
pub fn run_as_edd(words: impl Iterator<Item = String>) -> u8 {
    let words = std::iter::once("edd".to_owned()).chain(words).collect();
    edd_cli::run_on_system(words, &mut edd_cli::StandardOutput)
}

/// How a process ended, and what it printed to its output and to the standard error.
#[derive(Debug, Clone, Default, PartialEq, Eq)]
pub struct Finished {
    /// Nothing where a signal ended it.
    pub status: Option<i32>,
    pub printed: Vec<u8>,
    pub hint: Vec<u8>,
}

impl Finished {
    pub fn text(&self) -> String {
        String::from_utf8_lossy(&self.printed).into_owned()
    }
}

impl Display for Finished {
    fn fmt(&self, formatter: &mut fmt::Formatter<'_>) -> fmt::Result {
        match self.status {
            Some(status) => write!(formatter, "status {status}\n{}", self.text())?,
            None => write!(formatter, "ended by a signal\n{}", self.text())?,
        }
        if !self.hint.is_empty() {
            let hint = String::from_utf8_lossy(&self.hint);
            write!(formatter, "on the standard error:\n{hint}")?;
        }
        Ok(())
    }
}

/// A program that is `edd`, and the user that it runs as.
#[derive(Debug, Clone)]
pub struct Program {
    path: PathBuf,
    first_word: Option<&'static str>,
    user: Option<u32>,
}

impl Program {
    /// The program of this path.
    pub fn new(path: &Path) -> io::Result<Program> {
        Ok(Program {
            path: path.canonicalize()?,
            first_word: None,
            user: None,
        })
    }

    /// This process's own program, as `edd`.
    pub fn this_player() -> io::Result<Program> {
        Ok(Program {
            path: std::env::current_exe()?,
            first_word: Some(AS_EDD),
            user: None,
        })
    }

    /// Where this process is root's, a copy of the program in the folder, which runs as nobody.
    pub fn without_root(self, folder: &Path) -> io::Result<Program> {
        if fs::metadata(folder)?.uid() != 0 {
            return Ok(self);
        }
        let path = folder.join("edd");
        fs::copy(&self.path, &path)?;
        fs::set_permissions(&path, Permissions::from_mode(0o755))?;
        Ok(Program {
            path,
            user: Some(NOBODY),
            ..self
        })
    }

    /// Gives a file to the user that the program runs as. A link itself is given, not what it leads to.
    pub fn hand_over(&self, path: &Path) -> io::Result<()> {
        match self.user {
            Some(_) if path.is_symlink() => std::os::unix::fs::lchown(path, self.user, self.user),
            Some(_) => chown(path, self.user, self.user),
            None => Ok(()),
        }
    }

    fn command(
        &self,
        words: impl Iterator<Item = impl AsRef<std::ffi::OsStr>>,
        folder: &Path,
    ) -> Command {
        let mut command = Command::new(&self.path);
        command
            .args(self.first_word)
            .args(words)
            .current_dir(folder)
            .stdout(Stdio::piped());
        if let Some(user) = self.user {
            command.uid(user).gid(user);
        }
        command
    }

    /// Runs the program in a folder, with these bytes on its standard input.
    pub fn run<'w>(
        &self,
        words: impl Iterator<Item = &'w str>,
        folder: &Path,
        typed: &[u8],
    ) -> io::Result<Finished> {
        let mut child = self
            .command(words, folder)
            .stdin(Stdio::piped())
            .stderr(Stdio::piped())
            .spawn()?;
        let stdin = child.stdin.take();
        let ended = thread::scope(|scope| {
            // A program that ends early leaves what is typed.
            scope.spawn(move || stdin.map(|mut stdin| stdin.write_all(typed)));
            child.wait_with_output()
        })?;
        Ok(Finished {
            status: ended.status.code(),
            printed: ended.stdout,
            hint: ended.stderr,
        })
    }

    /// Runs the program with the name of a pipe as its last word, and gives what the pipe took too.
    pub fn run_into_pipe<'w>(
        &self,
        words: impl Iterator<Item = &'w str>,
        folder: &Path,
    ) -> io::Result<(Finished, Vec<u8>)> {
        let (reader, writer) = io::pipe()?;
        if self.user.is_some() {
            fchown(&writer, self.user, self.user)?;
        }
        let words = words.chain(["/proc/self/fd/2"]);
        // The command owns the writer and is dropped here, so the pipe ends where the program does.
        let child = self
            .command(words, folder)
            .stdin(Stdio::null())
            .stderr(writer)
            .spawn()?;
        let taken = read_rest(reader)?;
        let ended = child.wait_with_output()?;
        Ok((
            Finished {
                status: ended.status.code(),
                printed: ended.stdout,
                hint: Vec::new(),
            },
            taken,
        ))
    }
}

fn read_rest(mut reader: PipeReader) -> io::Result<Vec<u8>> {
    let mut bytes = Vec::new();
    reader.read_to_end(&mut bytes)?;
    Ok(bytes)
}
