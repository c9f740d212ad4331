//! What a user types: bytes, and lines of them.
use std::prelude::v1::*;

use crate::fault::SittingFault;
use std::alloc::Global;
use std::io::Read;

/// The most bytes of a line; what is behind them is taken as the next one.
const LONGEST: u32 = 1_048_576;

const PIECE: usize = 512;

/// Bytes that are read from their file when they are asked for, and not before.
pub struct Bytes<R> {
    input: R,
    piece: [u8; PIECE],
    // The place of the next byte in the piece, and the end of what was read into it.
    next: usize,
    end: usize,
}

/// Lines that are read so.
pub struct Lines<R> {
    bytes: Bytes<R>,
}

impl<R: Read> Bytes<R> {
    pub fn new(input: R) -> Bytes<R> {
        Bytes {
            input,
            piece: [0; PIECE],
            next: 0,
            end: 0,
        }
    }

    /// The next byte, or nothing at the end.
    pub fn next(&mut self) -> Result<Option<u8>, SittingFault> {
        if self.next >= self.end {
            let Ok(count) = self.input.read(&mut self.piece) else {
                return Err(SittingFault::Input);
            };
            if count == 0 {
                return Ok(None);
            }
            self.next = 0;
            self.end = count;
        }
        let byte = self.piece.get(self.next).copied();
        self.next = self.next.saturating_add(1);
        Ok(byte)
    }

    /// Has the last byte come again.
    pub fn put_back(&mut self) {
        self.next = self.next.saturating_sub(1);
    }

    /// Whether the last byte came alone, with no other behind it.
    pub fn is_alone(&self) -> bool {
        self.end == 1 && self.next == 1
    }
}

impl<R: Read> Lines<R> {
    pub fn new(input: R) -> Lines<R> {
        Lines {
            bytes: Bytes::new(input),
        }
    }

    /// The next line without its end, or nothing at the end of the file.
    pub fn next(&mut self, alloc: Global) -> Result<Option<Vec<u8>>, SittingFault> {
        let mut line = Vec::new(alloc);
        for _ in 0..LONGEST {
            let Some(byte) = self.bytes.next()? else {
                return Ok((!line.is_empty()).then_some(line));
            };
            if byte == b'\n' {
                return Ok(Some(line));
            }
            line.push(byte)?;
        }
        Ok(Some(line))
    }
}
