//! A disk in memory with a plain file `i`, a link `l` to it, and streams under all other names.

use edd_plain_std::io::Read;
use edd_plain_std::string::String as Name;
use edd_system::{Disk, Identity, Standing, save};
use std::cell::Cell;
use std::fmt::{self, Display, Write};
use std::io;

const FILE: &str = "i";

const LINK: &str = "l";

/// Which file `i` is.
pub const IDENTITY: Identity = Identity {
    device: 1,
    number: 2,
};

/// More calls than a saving makes.
const MOST_CALLS: u32 = 8;

/// A new file beside `i`.
#[derive(Debug)]
struct Beside {
    bytes: Vec<u8>,
    is_synced: bool,
}

/// A file that is read to its end.
#[derive(Debug)]
pub struct Ended;

impl Read for Ended {
    fn read(&mut self, _room: &mut [u8]) -> io::Result<usize> {
        Ok(0)
    }
}

/// A disk of which so many calls pass and all others fail.
#[derive(Debug)]
struct MemoryDisk {
    old: Vec<u8>,
    new: Option<Beside>,
    given: Vec<u8>,
    left: Cell<u32>,
}

impl MemoryDisk {
    fn new(calls: u32) -> MemoryDisk {
        MemoryDisk {
            old: b"older".to_vec(),
            new: None,
            given: Vec::new(),
            left: Cell::new(calls),
        }
    }

    fn make_call(&self) -> io::Result<()> {
        let left = self.left.get().checked_sub(1).ok_or(io::ErrorKind::Other)?;
        self.left.set(left);
        Ok(())
    }
}

impl Disk for MemoryDisk {
    type New = ();

    type Opened = Ended;

    fn open(&self, _name: &str) -> io::Result<Ended> {
        self.make_call().map(|()| Ended)
    }

    fn open_plain(&self, _name: &str) -> io::Result<Ended> {
        self.make_call().map(|()| Ended)
    }

    fn identity_of(&self, _opened: &Ended) -> io::Result<Option<Identity>> {
        Ok(Some(IDENTITY))
    }

    fn place_of(&self, name: &str) -> io::Result<Name> {
        self.make_call()?;
        Ok(Name::from_real(
            if name == LINK { FILE } else { name }.to_owned(),
        ))
    }

    fn look(&self, place: &str) -> io::Result<Standing> {
        self.make_call()?;
        Ok(if place == FILE {
            Standing::Plain(IDENTITY)
        } else {
            Standing::Stream
        })
    }

    fn create_beside(&mut self, _place: &str) -> io::Result<()> {
        self.new = None;
        self.make_call()?;
        self.new = Some(Beside {
            bytes: Vec::new(),
            is_synced: false,
        });
        Ok(())
    }

    // Where it fails, the new file has a part of the bytes.
    fn fill(&mut self, (): &mut (), bytes: &[u8]) -> io::Result<()> {
        let half = bytes.len().div_euclid(2);
        self.new = Some(Beside {
            bytes: bytes.iter().take(half).copied().collect(),
            is_synced: false,
        });
        self.make_call()?;
        self.new = Some(Beside {
            bytes: bytes.to_vec(),
            is_synced: false,
        });
        Ok(())
    }

    fn sync(&mut self, (): &mut ()) -> io::Result<()> {
        self.make_call()?;
        if let Some(new) = &mut self.new {
            new.is_synced = true;
        }
        Ok(())
    }

    fn put(&mut self, (): &mut (), place: &str) -> io::Result<()> {
        self.make_call()?;
        let new = self.new.take_if(|new| place == FILE && new.is_synced);
        self.old = new.ok_or(io::ErrorKind::NotFound)?.bytes;
        Ok(())
    }

    fn remove(&mut self, (): ()) {
        self.new = None;
    }

    fn give(&mut self, _place: &str, bytes: &[u8]) -> io::Result<()> {
        self.make_call()?;
        self.given.extend_from_slice(bytes);
        Ok(())
    }
}

impl Display for MemoryDisk {
    fn fmt(&self, formatter: &mut fmt::Formatter<'_>) -> fmt::Result {
        let old = String::from_utf8_lossy(&self.old);
        let new = if self.new.is_some() {
            "a new file stands beside"
        } else {
            "no new file"
        };
        write!(
            formatter,
            "i has {old}, {new}, streams were given {} bytes",
            self.given.len()
        )
    }
}

/// Saves under the name with none, one and more calls passing, and says what the disk has then.
pub fn save_each(name: &str, opened: &[Identity]) -> String {
    let mut lines = String::new();
    for calls in 0..MOST_CALLS {
        let mut disk = MemoryDisk::new(calls);
        let outcome = if save(&mut disk, opened, name, b"newer").is_ok() {
            "saved"
        } else {
            "failed"
        };
        // A text takes all that is written.
        writeln!(lines, "  {calls} calls: {outcome}, {disk}").unwrap_or_default();
    }
    lines
}

#[cfg(test)]
mod tests {
    use super::*;

    #[test]
    fn a_part_of_a_file_takes_no_place() {
        let mut disk = MemoryDisk::new(3);
        disk.create_beside(FILE).unwrap();
        disk.fill(&mut (), b"newer").unwrap();
        assert!(disk.put(&mut (), FILE).is_err());
        assert_eq!(
            (disk.old.as_slice(), disk.new.is_some()),
            (b"older".as_slice(), true)
        );
    }
}
