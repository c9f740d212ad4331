//! Messages cut out of a stream of bytes: a header part says how long the content behind it is.

use thiserror::Error;

/// The most bytes of a header part.
const MOST_HEADER: usize = 4096;

/// The most bytes of a message's content that are taken.
const MOST_CONTENT: u64 = 67_108_864;

/// How many bytes a header part that is too long may have at its end of its blank line.
const KEPT: usize = 3;

/// Why no content follows a header part, or none that is taken.
#[derive(Clone, Copy, Debug, PartialEq, Eq, Error)]
pub enum HeaderError {
    /// No field says how long the content is.
    #[error("a header without Content-Length")]
    NoLength,
    /// The length is no decimal number below 2^64.
    #[error("a Content-Length that is no number")]
    NotANumber,
    /// The content has more bytes than are taken.
    #[error("a message of more than 64 MiB")]
    ContentTooLong,
    /// The header part itself has too many bytes.
    #[error("a header of more than 4096 bytes")]
    HeaderTooLong,
}

/// What the next bytes belong to.
#[derive(Clone, Copy, Debug, Default)]
enum Part {
    #[default]
    Header,
    /// A header part that has too many bytes, up to its blank line.
    LongHeader,
    /// Content of so many bytes.
    Content(usize),
    /// Content that is not taken, of which so many bytes are left.
    Skipped(u64),
}

/// A stream of bytes up to where it was read.
///
/// ```
/// use edd_lsp::Framing;
///
/// let mut framing = Framing::default();
/// framing.push(b"Content-Length: 2\r\n\r\n{}Content-");
/// assert_eq!(framing.next_content(), Some(Ok(b"{}".to_vec())));
/// assert_eq!(framing.next_content(), None);
/// ```
#[derive(Debug, Default)]
pub struct Framing {
    held: Vec<u8>,
    part: Part,
}

impl Framing {
    /// Adds bytes as they come.
    pub fn push(&mut self, bytes: &[u8]) {
        self.held.extend_from_slice(bytes);
    }

    /// The content of the next message that is whole, or why one is not taken; none where the bytes so
    /// far end before that.
    pub fn next_content(&mut self) -> Option<Result<Vec<u8>, HeaderError>> {
        loop {
            match self.part {
                Part::Header => {
                    if let Err(error) = self.take_header()? {
                        return Some(Err(error));
                    }
                }
                Part::LongHeader => return self.take_long_header().map(Err),
                Part::Content(length) => {
                    let content = self.take_bytes(length)?;
                    self.part = Part::Header;
                    return Some(Ok(content));
                }
                Part::Skipped(left) => self.skip(left)?,
            }
        }
    }

    fn take_bytes(&mut self, count: usize) -> Option<Vec<u8>> {
        (count <= self.held.len()).then(|| self.held.drain(..count).collect())
    }

    /// Takes a header part; none where it does not end yet.
    fn take_header(&mut self) -> Option<Result<(), HeaderError>> {
        let most = self.held.len().min(MOST_HEADER.saturating_add(1));
        let Some(end) = header_end(self.held.get(..most)?, true) else {
            if most <= MOST_HEADER {
                return None;
            }
            self.part = Part::LongHeader;
            return Some(Ok(()));
        };
        let header = self.take_bytes(end)?;
        let length = match content_length(&header) {
            Ok(length) => length,
            Err(error) => return Some(Err(error)),
        };
        match usize::try_from(length) {
            Ok(count) if length <= MOST_CONTENT => {
                self.part = Part::Content(count);
                Some(Ok(()))
            }
            _ => {
                self.part = Part::Skipped(length);
                Some(Err(HeaderError::ContentTooLong))
            }
        }
    }

    /// Passes over a header part that is too long; none where it does not end yet.
    fn take_long_header(&mut self) -> Option<HeaderError> {
        let Some(end) = header_end(&self.held, false) else {
            let passed = self.held.len().saturating_sub(KEPT);
            self.held.drain(..passed);
            return None;
        };
        self.held.drain(..end);
        self.part = Part::Header;
        Some(HeaderError::HeaderTooLong)
    }

    /// Passes over content; none where it does not end yet.
    fn skip(&mut self, left: u64) -> Option<()> {
        let here = usize::try_from(left).map_or(self.held.len(), |left| left.min(self.held.len()));
        self.held.drain(..here);
        let left = u64::try_from(here).map_or(0, |here| left.saturating_sub(here));
        self.part = if left == 0 {
            Part::Header
        } else {
            Part::Skipped(left)
        };
        (left == 0).then_some(())
    }
}

/// How many bytes a header part has with its blank line, whose lines may end in LF alone. `is_whole`
/// says whether the bytes begin where the header part does.
fn header_end(bytes: &[u8], is_whole: bool) -> Option<usize> {
    let ends = |index: usize| match bytes.get(..=index).unwrap_or_default() {
        [.., b'\n', b'\r', b'\n'] | [.., b'\n', b'\n'] => true,
        b"\r\n" | b"\n" => is_whole,
        _ => false,
    };
    let end = (0..bytes.len()).find(|index| ends(*index))?;
    end.checked_add(1)
}

/// The value of a field, if the line is one of this name.
fn field_value<'a>(line: &'a str, name: &str) -> Option<&'a str> {
    let (before, value) = line.split_once(':')?;
    let is_named = before.trim().eq_ignore_ascii_case(name);
    is_named.then_some(value.trim())
}

/// How many bytes of content follow a header part. Other fields are passed over; of two lengths the
/// last counts.
fn content_length(header: &[u8]) -> Result<u64, HeaderError> {
    let header = str::from_utf8(header).map_err(|_| HeaderError::NoLength)?;
    let mut values = header
        .lines()
        .rev()
        .filter_map(|line| field_value(line, "Content-Length"));
    let last = values.next().ok_or(HeaderError::NoLength)?;
    last.parse().map_err(|_| HeaderError::NotANumber)
}

#[cfg(test)]
#[allow(clippy::arithmetic_side_effects, reason = "a test fails by a panic")]
mod tests {
    use super::*;

    fn all(pieces: &[&[u8]]) -> Vec<Result<Vec<u8>, HeaderError>> {
        let mut framing = Framing::default();
        let mut contents = Vec::new();
        for piece in pieces {
            framing.push(piece);
            contents.extend(std::iter::from_fn(|| framing.next_content()));
        }
        contents
    }

    #[test]
    fn pieces_come_to_messages() {
        let bytes = b"content-length : 2\n\nabContent-Type: x\r\nContent-Length: 1\r\n\r\nc";
        let wanted = [Ok(b"ab".to_vec()), Ok(b"c".to_vec())];
        assert_eq!(all(&[bytes]), wanted);
        let single: Vec<&[u8]> = bytes.chunks(1).collect();
        assert_eq!(all(&single), wanted);
    }

    #[test]
    fn what_is_no_header_is_refused_up_to_its_blank_line() {
        let next: &[u8] = b"Content-Length: 1\r\n\r\nx";
        let cases: [(&[u8], HeaderError); 5] = [
            (b"\r\n", HeaderError::NoLength),
            (b"Length: 1\n\n", HeaderError::NoLength),
            (b"Content-Length: -1\n\n", HeaderError::NotANumber),
            (
                b"Content-Length: 18446744073709551616\n\n",
                HeaderError::NotANumber,
            ),
            (b"\xff\n\n", HeaderError::NoLength),
        ];
        for (bytes, error) in cases {
            assert_eq!(all(&[bytes, next]), [Err(error), Ok(b"x".to_vec())]);
        }
    }

    #[test]
    fn a_header_has_4096_bytes_and_content_64_mebibytes() {
        let header = |blanks: usize| format!("{}\nContent-Length: 0\n\n", " ".repeat(blanks));
        let longest = MOST_HEADER - header(0).len() + 1;
        assert_eq!(all(&[header(longest).as_bytes()]), [Ok(Vec::new())]);
        let longer = [header(longest + 1), "\r\nContent-Length: 0\n\n".to_owned()].concat();
        let refused = [
            Err(HeaderError::HeaderTooLong),
            Err(HeaderError::NoLength),
            Ok(Vec::new()),
        ];
        assert_eq!(all(&[longer.as_bytes()]), refused);

        let mut framing = Framing::default();
        framing.push(b"Content-Length: 67108865\n\n");
        assert_eq!(
            framing.next_content(),
            Some(Err(HeaderError::ContentTooLong))
        );
        let piece = vec![b'\n'; 1 << 20];
        for _ in 0..64 {
            framing.push(&piece);
            assert_eq!(framing.next_content(), None);
        }
        framing.push(b"\nContent-Length: 1\n\ny");
        assert_eq!(framing.next_content(), Some(Ok(b"y".to_vec())));
    }
}
