//! Why a run ends before its end.

use core_std::alloc::AllocError;
use edd_display::ShowFault;
use edd_loader::LoadFault;
use edd_machine::ValuesFault;
use edd_port::PlayFault;
use edd_script::ScriptFault;
use legacy_sitting::SittingFault;
use thiserror::Error;

/// Why a description can't be shown, run or opened, or not to the end. Displayed is the line that a
/// program prints.
#[derive(Clone, Debug, Error)]
pub enum RunError {
    /// The source is refused, with this number, name and detail.
    #[error("refused {0}")]
    Source(String),
    /// The source of the device is refused.
    #[error("refused {refusal} of {name}")]
    Device {
        /// The name of its file.
        name: String,
        /// Its number, name and detail.
        refusal: String,
    },
    /// The bytes are no image.
    #[error("refused {0}")]
    Image(LoadFault),
    /// The script can't be read.
    #[error("refused {0}")]
    Script(ScriptFault),
    /// The script sets a value that its variable can't have.
    #[error("refused {0}")]
    Values(ValuesFault),
    /// There is no method of this name.
    #[error("refused 301 NO_METHOD {0}")]
    NoMethod(String),
    /// The method can't be run.
    #[error("refused {0}")]
    Play(PlayFault),
    /// The device had no answer. The lines of the run are printed.
    #[error("refused {0}")]
    NoAnswer(String),
    /// What a user types can't be read.
    #[error("the input can't be read")]
    Input,
    /// The lines can't be written.
    #[error("the output can't be written")]
    Output,
    /// There is no memory.
    #[error("no memory")]
    Memory,
}

impl From<AllocError> for RunError {
    fn from(_: AllocError) -> RunError {
        RunError::Memory
    }
}

impl From<LoadFault> for RunError {
    fn from(fault: LoadFault) -> RunError {
        match fault {
            LoadFault::Memory => RunError::Memory,
            fault => RunError::Image(fault),
        }
    }
}

impl From<ScriptFault> for RunError {
    fn from(fault: ScriptFault) -> RunError {
        match fault {
            ScriptFault::Memory => RunError::Memory,
            fault => RunError::Script(fault),
        }
    }
}

impl From<ValuesFault> for RunError {
    fn from(fault: ValuesFault) -> RunError {
        match fault {
            ValuesFault::Memory => RunError::Memory,
            fault => RunError::Values(fault),
        }
    }
}

impl From<PlayFault> for RunError {
    fn from(fault: PlayFault) -> RunError {
        match fault {
            PlayFault::Memory => RunError::Memory,
            fault => RunError::Play(fault),
        }
    }
}

impl From<ShowFault> for RunError {
    fn from(fault: ShowFault) -> RunError {
        match fault {
            ShowFault::Memory => RunError::Memory,
            ShowFault::Output => RunError::Output,
            ShowFault::WrongValues => RunError::Values(ValuesFault::Count),
        }
    }
}

impl From<SittingFault> for RunError {
    fn from(fault: SittingFault) -> RunError {
        match fault {
            SittingFault::Memory => RunError::Memory,
            SittingFault::Output => RunError::Output,
            SittingFault::Input => RunError::Input,
        }
    }
}
