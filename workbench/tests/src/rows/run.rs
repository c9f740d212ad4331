//! Runs of the program over files in memory.

use super::memory::{Calls, MemoryFiles, MemoryOutput};
use super::row::File;
use edd_plain_std::alloc::Global;
use std::fmt::{self, Display};

/// How a run ended, what it printed, what it told beside that, and what it saved last.
#[derive(Debug, Clone, Default, PartialEq, Eq)]
pub struct Run {
    pub status: u8,
    pub printed: Vec<u8>,
    pub hint: String,
    pub saved: Vec<u8>,
}

impl Run {
    /// Runs a command line, the program's name first, over these files.
    ///
    /// ```
    /// use edd_tests::rows::{Calls, File, Run};
    /// let source = File { name: "s".into(), bytes: b"no description".to_vec() };
    /// let run = Run::in_memory("edd view s", &[source], &Calls::passing());
    /// assert_eq!((run.status, run.text()), (1, "refused 10 SYNTAX line 1\n".into()));
    /// ```
    pub fn in_memory(command: &str, files: &[File], calls: &Calls) -> Run {
        let words = command.split(' ').map(str::to_owned).collect();
        let mut files = MemoryFiles {
            files,
            calls,
            hint: String::new(),
            saved: Vec::new(),
        };
        let mut output = MemoryOutput {
            printed: Vec::new(),
            calls,
        };
        let status = edd_cli::run(words, &mut files, &mut output);
        Run {
            status,
            printed: output.printed,
            hint: files.hint,
            saved: files.saved,
        }
    }

    pub fn text(&self) -> String {
        String::from_utf8_lossy(&self.printed).into_owned()
    }
}

impl Display for Run {
    fn fmt(&self, formatter: &mut fmt::Formatter<'_>) -> fmt::Result {
        write!(formatter, "status {}\n{}", self.status, self.text())?;
        if !self.hint.is_empty() {
            write!(formatter, "on the standard error:\n{}", self.hint)?;
        }
        self.saved
            .iter()
            .try_for_each(|byte| write!(formatter, "{byte:02X} "))
    }
}

/// The image of a source, if it has one.
pub fn compile(source: &[u8]) -> Option<Vec<u8>> {
    edd_compiler::compile(Global, source)
        .ok()
        .map(edd_plain_std::vec::Vec::into_real)
}
