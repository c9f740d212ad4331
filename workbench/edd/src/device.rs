//! Simulated devices.

use crate::memory::{Global, refused};
use crate::{Answer, Opened, PlayFault, Transcript, Values};
use edd_instructions::Request;
use edd_syntax::answer::Trap;
use edd_syntax::numbers::{CmdNo, MethNo, VarNo};
use std::fmt;

/// A device of an instrument, which a second description simulates. docs/DEVICES.md says how.
///
/// ```
/// use edd::{Answer, Device, Request};
///
/// let instrument = edd::compile(include_bytes!("../../../examples/flow_transmitter.edd"))?;
/// let simulation = edd::compile(include_bytes!("../../../examples/flow_transmitter.device.edd"))?;
/// let (instrument, simulation) = (instrument.open(), simulation.open());
/// let mut device = Device::start(&instrument, &simulation);
/// let values = instrument.image().values();
/// assert_eq!(device.reply(&Request::SaveValues, &values)?, Some(Answer::code(0)));
/// # Ok::<(), Box<dyn std::error::Error>>(())
/// ```
pub struct Device<'i, 'b> {
    instrument: &'i Opened<'b>,
    core: edd_device::Device<'i, 'b>,
}

/// What a method did with a device.
#[derive(Clone, Debug, PartialEq, Eq)]
pub struct Trial {
    /// What the method did.
    pub transcript: Transcript,
    /// Why the device had no answer, the first time that it had none. There the method was aborted.
    pub fault: Option<DeviceFault>,
}

/// Why a simulated device has no answer.
#[derive(Clone, Copy, Debug, PartialEq, Eq)]
pub enum DeviceFault {
    /// The values are not those of the instrument.
    WrongValues,
    /// A method of the device asks.
    Asks(MethNo),
    /// A method of the device traps.
    Traps(MethNo, Trap),
    /// A method of the device aborts.
    Aborts(MethNo),
    /// A method of the device does not end within its instructions.
    RunsOn(MethNo),
    /// The instrument has no command of the number.
    NoCommand(i32),
    /// The command of the first number has no transaction of the second.
    NoTransaction(i32, i32),
    /// What a transaction of the command carries has no value.
    NoMessage(CmdNo, Trap),
    /// The value of a variable of the instrument is out of the range of the other side's variable.
    OutOfRange(VarNo),
    /// The code of an answer has more than 32 bits.
    WrongCode,
}

impl DeviceFault {
    /// The number of the fault, as docs/REFUSALS.md lists it.
    pub fn number(self) -> u16 {
        self.heading().0
    }

    /// The kind of the fault: the word that stands behind its number.
    pub fn name(self) -> &'static str {
        self.heading().1
    }

    fn heading(self) -> (u16, &'static str) {
        match self {
            DeviceFault::WrongValues => (204, "WRONG_VALUES"),
            DeviceFault::Asks(_) => (270, "DEVICE_ASKS"),
            DeviceFault::Traps(_, _) => (271, "DEVICE_TRAPS"),
            DeviceFault::Aborts(_) => (272, "DEVICE_ABORTS"),
            DeviceFault::RunsOn(_) => (273, "DEVICE_RUNS_ON"),
            DeviceFault::NoCommand(_) => (274, "NO_COMMAND"),
            DeviceFault::NoTransaction(_, _) => (275, "NO_TRANSACTION"),
            DeviceFault::NoMessage(_, _) => (276, "NO_MESSAGE"),
            DeviceFault::OutOfRange(_) => (277, "DEVICE_RANGE"),
            DeviceFault::WrongCode => (278, "DEVICE_CODE"),
        }
    }

    fn from_core(fault: edd_device::DeviceFault) -> DeviceFault {
        use edd_device::DeviceFault as Core;
        match fault {
            Core::Asks(method) => DeviceFault::Asks(method),
            Core::Traps(method, trap) => DeviceFault::Traps(method, trap),
            Core::Aborts(method) => DeviceFault::Aborts(method),
            Core::RunsOn(method) => DeviceFault::RunsOn(method),
            Core::NoCommand(number) => DeviceFault::NoCommand(number),
            Core::NoTransaction(command, number) => DeviceFault::NoTransaction(command, number),
            Core::NoMessage(command, trap) => DeviceFault::NoMessage(command, trap),
            Core::OutOfRange(variable) => DeviceFault::OutOfRange(variable),
            Core::WrongCode => DeviceFault::WrongCode,
            Core::Memory => refused::<DeviceFault>(),
        }
    }
}

impl fmt::Display for DeviceFault {
    fn fmt(&self, f: &mut fmt::Formatter<'_>) -> fmt::Result {
        write!(f, "{} {}", self.number(), self.name())
    }
}

impl std::error::Error for DeviceFault {}

impl<'i, 'b> Device<'i, 'b> {
    /// A device of an instrument as it starts: each of its variables has its default, or 0. The
    /// second image is that of its own description.
    ///
    /// Variables of both sides belong together by their names, so any two images will do.
    pub fn start(instrument: &'i Opened<'b>, simulation: &'i Opened<'b>) -> Device<'i, 'b> {
        let core = edd_device::Device::new(Global, instrument.core(), simulation.core());
        Device {
            instrument,
            core: crate::memory::made(core),
        }
    }

    /// The instrument whose device it is.
    pub fn instrument(&self) -> &'i Opened<'b> {
        self.instrument
    }

    /// The values of its own variables, by their numbers.
    pub fn numbers(&self) -> &[i64] {
        self.core.numbers()
    }

    /// What the device answers to a request that a method makes under these values of the
    /// instrument. It has no answer to requests that ask the user.
    ///
    /// # Errors
    ///
    /// The values are not those of the instrument, or the device has no answer. Then it stays as it
    /// was.
    pub fn reply(
        &mut self,
        request: &Request,
        values: &Values,
    ) -> Result<Option<Answer>, DeviceFault> {
        if !values.are_of(self.instrument.image()) {
            return Err(DeviceFault::WrongValues);
        }
        match self.core.reply(Global, request, values.core()) {
            Ok(answer) => Ok(answer.map(Answer::from_core)),
            Err(fault) => Err(DeviceFault::from_core(fault)),
        }
    }

    /// Runs a method of the instrument from its start for at most so many instructions. The device
    /// answers its requests, and the script, in its order, those that ask the user.
    ///
    /// # Errors
    ///
    /// The values are not those of the instrument, the method is not started, or an answer of the
    /// script sets what cannot be set.
    ///
    /// ```
    /// use edd::{Device, Ending, ItemNo};
    ///
    /// let instrument = edd::compile(
    ///     b"MANUFACTURER 1, DEVICE_TYPE 2, DEVICE_REVISION 3, DD_REVISION 4
    ///       VARIABLE p { TYPE INTEGER (2); }
    ///       COMMAND read { NUMBER 1; OPERATION READ; TRANSACTION { REPLY { p } } }
    ///       METHOD refresh { DEFINITION { send_command(1); } }",
    /// )?;
    /// let simulation = edd::compile(
    ///     b"MANUFACTURER 1, DEVICE_TYPE 2, DEVICE_REVISION 3, DD_REVISION 4
    ///       VARIABLE p { TYPE INTEGER (2) { DEFAULT_VALUE 50; } }",
    /// )?;
    /// let Some(ItemNo::Method(refresh)) = instrument.find("refresh") else { panic!("a method") };
    /// let (instrument, simulation) = (instrument.open(), simulation.open());
    /// let mut device = Device::start(&instrument, &simulation);
    /// let trial = device.play(refresh, instrument.image().values(), &[], 1000)?;
    /// assert_eq!(trial.transcript.ending, Ending::Ended);
    /// assert_eq!(trial.transcript.values.numbers(), [50]);
    /// # Ok::<(), Box<dyn std::error::Error>>(())
    /// ```
    pub fn play(
        &mut self,
        method: MethNo,
        values: Values,
        script: &[Answer],
        steps: u32,
    ) -> Result<Trial, PlayFault> {
        let image = self.instrument.image();
        if !values.are_of(image) {
            return Err(PlayFault::WrongValues);
        }
        let script = Answer::all_to_core(script);
        let played = self
            .core
            .play(Global, method, values.into_core(), &script, steps);
        match played {
            Ok(trial) => Ok(Trial {
                transcript: Transcript::from_core(image, trial.transcript),
                fault: trial.fault.map(DeviceFault::from_core),
            }),
            Err(fault) => Err(PlayFault::from_core(fault)),
        }
    }
}

impl fmt::Debug for Device<'_, '_> {
    fn fmt(&self, f: &mut fmt::Formatter<'_>) -> fmt::Result {
        f.debug_struct("Device")
            .field("instrument", self.instrument)
            .field("numbers", &self.numbers())
            .finish_non_exhaustive()
    }
}

#[cfg(test)]
mod tests {
    use super::*;
    use edd_device::DeviceFault as Core;

    #[test]
    fn faults_print_as_those_of_the_core() {
        let faults = [
            Core::Asks(MethNo(0)),
            Core::Traps(MethNo(0), Trap::DivZero),
            Core::Aborts(MethNo(0)),
            Core::RunsOn(MethNo(0)),
            Core::NoCommand(1),
            Core::NoTransaction(1, 2),
            Core::NoMessage(CmdNo(0), Trap::BadShift),
            Core::OutOfRange(VarNo(0)),
            Core::WrongCode,
        ];
        for fault in faults {
            assert_eq!(DeviceFault::from_core(fault).to_string(), fault.to_string());
        }
    }
}
