//! Why a sitting ends before the user ends it.
use std::prelude::v1::*;

use edd_display::ShowFault;
use std::alloc::{AllocError, AllocFailed};

/// Why a sitting ends before the user ends it.
#[derive(Clone, Copy)]
pub enum SittingFault {
    /// What the user types could not be read.
    Input,
    /// The output could not be written.
    Output,
    Memory,
}

impl From<ShowFault> for SittingFault {
    fn from(fault: ShowFault) -> SittingFault {
        match fault {
            ShowFault::Memory => SittingFault::Memory,
            // No line here is printed for want of values.
            ShowFault::Output | ShowFault::WrongValues => SittingFault::Output,
        }
    }
}

impl From<AllocError> for SittingFault {
    fn from(_error: AllocError) -> SittingFault {
        SittingFault::Memory
    }
}

impl<T: Drop> From<AllocFailed<T>> for SittingFault {
    fn from(_error: AllocFailed<T>) -> SittingFault {
        SittingFault::Memory
    }
}
