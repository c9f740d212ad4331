//! The compiler, the checks, the communicator and its devices as one module of WebAssembly, which
//! imports nothing.
//!
//! Bytes go in through blocks: `alloc` answers a block's number, `place` where its bytes are. Each
//! call answers a status, and what it gives is at `out`, in `out_size` bytes. Blocks and desks are
//! named by numbers that are looked up, so no call trusts what it is given.
#![no_std]

mod blocks;
mod calls;
mod desk;
mod editing;
mod places;
mod states;
mod texts;

use std::alloc::{AllocError, AllocFailed, Global};
use std::string::String;
use std::vec::Vec;

/// Why a call gives nothing.
pub enum Stop {
    /// The line of a refusal.
    Refused(String),
    Memory,
    /// There is no such block or desk.
    Unknown,
}

impl From<AllocError> for Stop {
    fn from(_: AllocError) -> Stop {
        Stop::Memory
    }
}

impl<T> From<AllocFailed<T>> for Stop {
    fn from(_: AllocFailed<T>) -> Stop {
        Stop::Memory
    }
}

impl Stop {
    /// A refusal, unless it says that there was no memory.
    pub fn of<F: core::fmt::Display>(fault: F, is_memory: bool) -> Stop {
        if is_memory {
            return Stop::Memory;
        }
        match std::format!(in Global; "{fault}") {
            Ok(line) => Stop::Refused(line),
            Err(AllocError) => Stop::Memory,
        }
    }
}

/// A value as the bytes of its JSON.
pub fn json<T: serde::Serialize>(value: &T) -> Result<Vec<u8>, Stop> {
    match serde_json::to_vec(value) {
        Ok(bytes) => Ok(Vec::from_real(bytes)),
        Err(_) => Err(Stop::Memory),
    }
}
