//! Runs of the program on a file in memory that comes in pieces, fails or has no end.

use edd_cli::{FileFault, Files};
use edd_plain_std::io::Read;
use std::io;

const IDENTIFICATION: &[u8] = b"MANUFACTURER 1, DEVICE_TYPE 2, DEVICE_REVISION 3, DD_REVISION 4\n";

const COMMAND: [&str; 4] = ["edd", "compile", "s", "i"];

/// Every name is that of one file, which begins with the identification. Nothing is kept of what is saved.
#[derive(Debug, Clone, Copy)]
struct OneFile {
    opened: Result<(), FileFault>,
    saved: Result<(), FileFault>,
    /// The most bytes that a read gives.
    piece: usize,
    /// How many bytes come after the identification.
    further: usize,
    /// Whether a read after all of them fails.
    is_broken: bool,
}

#[derive(Debug)]
struct Reader {
    rest: &'static [u8],
    file: OneFile,
}

impl Read for Reader {
    fn read(&mut self, room: &mut [u8]) -> io::Result<usize> {
        let most = room.len().min(self.file.piece);
        if !self.rest.is_empty() {
            return self.rest.read(room.get_mut(..most).unwrap_or_default());
        }
        let count = most.min(self.file.further);
        if count == 0 && self.file.is_broken {
            return Err(io::ErrorKind::Other.into());
        }
        self.file.further = self.file.further.saturating_sub(count);
        Ok(count)
    }
}

impl Files for OneFile {
    type Reader = Reader;

    fn open(&mut self, _name: &str) -> Result<Reader, FileFault> {
        self.opened.map(|()| Reader {
            rest: IDENTIFICATION,
            file: *self,
        })
    }

    fn save(&mut self, _name: &str, _bytes: &[u8]) -> Result<(), FileFault> {
        self.saved
    }
}

/// Parses `PIECE FURTHER`, and after it what fails: `opening`, `memory_of_opening`, `reading`, `saving` or
/// `memory_of_saving`.
fn parse(words: &str) -> Option<OneFile> {
    let mut words = words.split(' ');
    let piece = words.next()?.parse().ok()?;
    let further = words.next()?.parse().ok()?;
    let mut file = OneFile {
        opened: Ok(()),
        saved: Ok(()),
        piece,
        further,
        is_broken: false,
    };
    match words.next() {
        None => {}
        Some("opening") => file.opened = Err(FileFault::Failed),
        Some("memory_of_opening") => file.opened = Err(FileFault::Memory),
        Some("reading") => file.is_broken = true,
        Some("saving") => file.saved = Err(FileFault::Failed),
        Some("memory_of_saving") => file.saved = Err(FileFault::Memory),
        Some(_) => return None,
    }
    Some(file)
}

/// Compiles the file that the words of a step say. Gives the lines and the status, if the words are right.
pub fn compile(words: &str) -> Option<String> {
    let mut file = parse(words)?;
    let words = COMMAND.map(str::to_owned).to_vec();
    let mut printed = Vec::new();
    let status = edd_cli::run(words, &mut file, &mut printed);
    Some(format!(
        "{}status {status}\n",
        String::from_utf8_lossy(&printed)
    ))
}

#[cfg(test)]
mod tests {
    use super::*;

    #[test]
    fn words_of_a_step_are_parsed_whole() {
        assert_eq!(compile("3 0").as_deref(), Some("image 56\nstatus 0\n"));
        assert!(
            compile("3").is_none() && compile("3 0 nothing").is_none() && compile("a 0").is_none()
        );
    }
}
