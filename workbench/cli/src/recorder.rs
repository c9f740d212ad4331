//! Files that remember what was read of them, to explain a refusal by it.

use crate::failure::reason;
use core_std::alloc::Global;
use core_std::io::{Read, Result as CoreResult};
use edd_files::{FileFault, Files, read_all};
use std::rc::Rc;

/// Files, with the bytes of those that were read, in their order, and why the last one failed.
pub(crate) struct Recorder<'f, F> {
    files: &'f mut F,
    pub(crate) read: Vec<Rc<[u8]>>,
    fault: Option<FileFault>,
    /// Whether no hint is printed.
    is_quiet: bool,
    /// Whether the second file that is read is an empty one: a script that is not given.
    has_empty_script: bool,
}

/// A file that was read.
#[derive(Clone)]
pub(crate) struct Recorded {
    bytes: Rc<[u8]>,
    place: usize,
}

impl<'f, F: Files> Recorder<'f, F> {
    pub(crate) fn new(files: &'f mut F, is_quiet: bool) -> Recorder<'f, F> {
        Recorder {
            files,
            read: Vec::new(),
            fault: None,
            is_quiet,
            has_empty_script: false,
        }
    }

    /// Has the second file that is read be an empty one, whatever its name is. A run reads its script
    /// behind its description.
    pub(crate) fn with_empty_script(mut self) -> Recorder<'f, F> {
        self.has_empty_script = true;
        self
    }

    /// Prints why a file failed as a hint, if one did.
    pub(crate) fn explain_fault(&mut self) {
        if let Some(fault) = self.fault {
            self.hint(reason(fault));
        }
    }

    /// Notes why a call failed.
    fn noted<T>(&mut self, answer: Result<T, FileFault>) -> Result<T, FileFault> {
        self.fault = self.fault.or(answer.as_ref().err().copied());
        answer
    }
}

fn read_whole(mut reader: impl Read) -> Result<Recorded, FileFault> {
    let bytes = read_all(Global, &mut reader)?;
    Ok(Recorded {
        bytes: bytes.as_slice().into(),
        place: 0,
    })
}

impl<F: Files> Files for Recorder<'_, F> {
    type Reader = Recorded;

    fn open(&mut self, name: &str) -> Result<Recorded, FileFault> {
        let answer = match self.read.len() {
            1 if self.has_empty_script => read_whole(b"".as_slice()),
            _ => self.files.open(name).and_then(read_whole),
        };
        let recorded = self.noted(answer)?;
        self.read.push(Rc::clone(&recorded.bytes));
        Ok(recorded)
    }

    fn open_plain(&mut self, name: &str) -> Result<Recorded, FileFault> {
        self.files.open_plain(name).and_then(read_whole)
    }

    fn save(&mut self, name: &str, bytes: &[u8]) -> Result<(), FileFault> {
        let answer = self.files.save(name, bytes);
        self.noted(answer)
    }

    fn renew(&mut self, name: &str, bytes: &[u8]) -> Result<(), FileFault> {
        let answer = self.files.renew(name, bytes);
        self.noted(answer)
    }

    fn hint(&mut self, line: &str) {
        if !self.is_quiet {
            self.files.hint(line);
        }
    }
}

impl Read for Recorded {
    fn read(&mut self, room: &mut [u8]) -> CoreResult<usize> {
        let rest = self.bytes.get(self.place..).unwrap_or_default();
        let count = rest.len().min(room.len());
        if let (Some(from), Some(to)) = (rest.get(..count), room.get_mut(..count)) {
            to.copy_from_slice(from);
        }
        self.place = self.place.saturating_add(count);
        Ok(count)
    }
}
