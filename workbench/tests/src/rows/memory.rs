//! Files and an output in memory, of which one call can fail.

use super::row::{File, INPUT};
use edd_cli::{FileFault, Files};
use edd_plain_std::io::Read;
use std::fmt::{self, Display};
use std::io::{self, Write};
use std::sync::{Mutex, MutexGuard, PoisonError};

/// The file of this name has no end, and its reads don't count.
pub const ENDLESS: &str = "endless";

/// Among what a user types it stands for a read that gives nothing.
pub const PAUSE: u8 = 0x16;

/// The most bytes of a read from a short file.
const SHORT_READ: usize = 7;

/// A read from a long file gives one of so many parts more.
const PARTS_OF_LONG: usize = 256;

/// The most bytes of a write.
const LONGEST_WRITE: usize = 11;

/// A kind of call.
#[derive(Debug, Clone, Copy, PartialEq, Eq)]
pub enum Call {
    Open,
    Read,
    Save,
    Write,
}

impl Display for Call {
    fn fmt(&self, formatter: &mut fmt::Formatter<'_>) -> fmt::Result {
        formatter.write_str(match self {
            Call::Open => "opening",
            Call::Read => "read",
            Call::Save => "saving",
            Call::Write => "write",
        })
    }
}

/// What became of the call that fails.
#[derive(Debug, Clone, Copy, PartialEq, Eq)]
pub enum Failing {
    /// It has not come: so many calls of its kind pass before it.
    After(u32),
    /// It has failed, and no call of its kind came after it.
    Failed,
    /// Another call of its kind came after it, which passed.
    WentOn,
}

/// The calls of a run, of which one may fail.
#[derive(Debug)]
pub struct Calls {
    failing: Option<Call>,
    state: Mutex<Failing>,
}

impl Calls {
    /// All calls pass.
    pub fn passing() -> Calls {
        Calls {
            failing: None,
            state: Mutex::new(Failing::After(0)),
        }
    }

    /// The call of this kind fails that comes after so many others.
    pub fn failing(call: Call, after: u32) -> Calls {
        Calls {
            failing: Some(call),
            state: Mutex::new(Failing::After(after)),
        }
    }

    pub fn state(&self) -> Failing {
        *self.lock()
    }

    /// The state, which another thread may have left in the middle of a call.
    fn lock(&self) -> MutexGuard<'_, Failing> {
        self.state.lock().unwrap_or_else(PoisonError::into_inner)
    }

    /// Counts a call.
    fn make(&self, call: Call) -> io::Result<()> {
        if self.failing != Some(call) {
            return Ok(());
        }
        let mut now = self.lock();
        let (state, outcome) = match *now {
            Failing::After(0) => (Failing::Failed, Err(io::ErrorKind::Other.into())),
            Failing::After(left) => (Failing::After(left.saturating_sub(1)), Ok(())),
            Failing::Failed | Failing::WentOn => (Failing::WentOn, Ok(())),
        };
        *now = state;
        outcome
    }
}

/// Files by their names, the lines that were told beside the output, and the bytes that were saved last.
#[derive(Debug)]
pub struct MemoryFiles<'f> {
    pub files: &'f [File],
    pub calls: &'f Calls,
    pub hint: String,
    pub saved: Vec<u8>,
}

/// Gives at most seven bytes a read, and more of a long file.
#[derive(Debug)]
pub enum MemoryReader<'f> {
    Endless,
    Bytes {
        rest: &'f [u8],
        most: usize,
        has_pauses: bool,
        /// None for a file that a mark names, which no command needs.
        calls: Option<&'f Calls>,
    },
}

impl Read for MemoryReader<'_> {
    fn read(&mut self, room: &mut [u8]) -> io::Result<usize> {
        let MemoryReader::Bytes {
            rest,
            most,
            has_pauses,
            calls,
        } = self
        else {
            return Ok(room.len());
        };
        calls.map_or(Ok(()), |calls| calls.make(Call::Read))?;
        let is_typed = |byte: &&u8| !*has_pauses || **byte != PAUSE;
        let ahead = rest.iter().take(room.len()).take_while(is_typed).count();
        if ahead == 0 && *has_pauses {
            *rest = rest.get(1..).unwrap_or_default();
            return Ok(0);
        }
        rest.read(room.get_mut(..ahead.min(*most)).unwrap_or_default())
    }
}

impl<'f> MemoryFiles<'f> {
    fn bytes(&self, name: &str) -> Result<&'f [u8], FileFault> {
        let found = self.files.iter().find(|file| file.name == name);
        found
            .map(|file| file.bytes.as_slice())
            .ok_or(FileFault::Missing)
    }
}

impl<'f> Files for MemoryFiles<'f> {
    type Reader = MemoryReader<'f>;

    fn open(&mut self, name: &str) -> Result<MemoryReader<'f>, FileFault> {
        self.calls.make(Call::Open).map_err(|_| FileFault::Failed)?;
        if name == ENDLESS {
            return Ok(MemoryReader::Endless);
        }
        let rest = self.bytes(name)?;
        let most = rest
            .len()
            .div_euclid(PARTS_OF_LONG)
            .saturating_add(SHORT_READ);
        Ok(MemoryReader::Bytes {
            rest,
            most,
            has_pauses: name == INPUT,
            calls: Some(self.calls),
        })
    }

    fn open_plain(&mut self, name: &str) -> Result<MemoryReader<'f>, FileFault> {
        let rest = self.bytes(name)?;
        Ok(MemoryReader::Bytes {
            rest,
            most: SHORT_READ,
            has_pauses: false,
            calls: None,
        })
    }

    fn save(&mut self, _name: &str, bytes: &[u8]) -> Result<(), FileFault> {
        self.calls.make(Call::Save).map_err(|_| FileFault::Failed)?;
        self.saved = bytes.to_vec();
        Ok(())
    }

    fn hint(&mut self, line: &str) {
        self.hint.push_str(line);
        self.hint.push('\n');
    }
}

/// Keeps what is written. Takes at most eleven bytes a write.
#[derive(Debug)]
pub struct MemoryOutput<'f> {
    pub printed: Vec<u8>,
    pub calls: &'f Calls,
}

impl Write for MemoryOutput<'_> {
    fn write(&mut self, bytes: &[u8]) -> io::Result<usize> {
        self.calls.make(Call::Write)?;
        self.printed.extend(bytes.iter().take(LONGEST_WRITE));
        Ok(bytes.len().min(LONGEST_WRITE))
    }

    fn flush(&mut self) -> io::Result<()> {
        Ok(())
    }
}

#[cfg(test)]
mod tests {
    use super::*;

    fn read_all(name: &str, bytes: &[u8]) -> Vec<Vec<u8>> {
        let files = [File {
            name: name.to_owned(),
            bytes: bytes.to_vec(),
        }];
        let calls = Calls::passing();
        let mut memory = MemoryFiles {
            files: &files,
            calls: &calls,
            hint: String::new(),
            saved: Vec::new(),
        };
        let mut reader = memory.open(name).unwrap();
        let mut room = [0; 16];
        (0..4)
            .map(|_| {
                reader
                    .read(&mut room)
                    .map(|count| room[..count].to_vec())
                    .unwrap()
            })
            .collect()
    }

    #[test]
    fn reads_are_short_and_pauses_give_nothing() {
        assert_eq!(
            read_all("s", b"0123456789"),
            [b"0123456".to_vec(), b"789".to_vec(), vec![], vec![]]
        );
        assert_eq!(
            read_all(INPUT, b"ab\x16c"),
            [b"ab".to_vec(), vec![], b"c".to_vec(), vec![]]
        );
        assert_eq!(
            read_all("s", b"ab\x16c"),
            [b"ab\x16c".to_vec(), vec![], vec![], vec![]]
        );
    }

    #[test]
    fn one_call_fails_and_those_after_it_are_seen() {
        let calls = Calls::failing(Call::Save, 1);
        assert!(calls.make(Call::Save).is_ok() && calls.make(Call::Open).is_ok());
        assert!(calls.make(Call::Save).is_err());
        assert_eq!(calls.state(), Failing::Failed);
        assert!(calls.make(Call::Save).is_ok());
        assert_eq!(calls.state(), Failing::WentOn);
    }
}
