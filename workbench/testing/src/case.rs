//! The run of a test.

use crate::TestError;
use core_std::alloc::Global;
use core_std::io::Write;
use edd_cases::{Case, Description, Kind, Printed, beside};
use edd_files::{FileFault, Files, read_bytes};
use edd_run::{DeviceSource, MethodRun, OpenSetup, RunError};

/// What a test of a file reads.
struct Inputs {
    description: Vec<u8>,
    device: Option<Vec<u8>>,
    script: Vec<u8>,
}

/// Runs a test of a file, and returns what it prints. What the run is refused with is the last line.
pub(crate) fn run_case(
    file: &str,
    case: &Case<'_>,
    files: &mut impl Files,
) -> Result<Printed, TestError> {
    let inputs = read_inputs(file, case, files)?;
    let mut printed = Printed::nothing(Global);
    let refusal = match run(case, &inputs, &mut printed) {
        Ok(()) => return Ok(printed),
        // It is printed into memory.
        Err(RunError::Memory | RunError::Output) => return Err(TestError::Memory),
        Err(refusal) => refusal,
    };
    let line = format!("{refusal}\n");
    match printed.write_all(line.as_bytes()) {
        Ok(()) => Ok(printed),
        Err(_) => Err(TestError::Memory),
    }
}

fn read_inputs(file: &str, case: &Case<'_>, files: &mut impl Files) -> Result<Inputs, TestError> {
    let description = read_beside(file, case.description.name(), files)?;
    let device = match (case.kind, case.device) {
        (Kind::Show, _) | (_, None) => None,
        (_, Some(name)) => Some(read_beside(file, name, files)?),
    };
    let script = case.script(Global)?.as_bytes().to_vec();
    Ok(Inputs {
        description,
        device,
        script,
    })
}

/// Reads a file that a file of tests names.
fn read_beside(file: &str, name: &str, files: &mut impl Files) -> Result<Vec<u8>, TestError> {
    let path = beside(Global, file, name)?;
    match read_bytes(Global, files, path.as_str()) {
        Ok(bytes) => Ok(bytes.into_real()),
        Err(FileFault::Memory) => Err(TestError::Memory),
        Err(fault) => Err(TestError::File {
            name: path.as_str().to_owned(),
            fault,
        }),
    }
}

/// Does what a test says, as `try`, `view` or `open` would.
fn run(case: &Case<'_>, inputs: &Inputs, output: &mut Printed) -> Result<(), RunError> {
    let compiled;
    let image = match case.description {
        Description::Image(_) => &inputs.description,
        Description::Source(_) => {
            compiled = edd_run::compile(&inputs.description)?;
            &compiled
        }
    };
    let device = case
        .device
        .zip(inputs.device.as_deref())
        .map(|(name, text)| DeviceSource { name, text });
    match case.kind {
        Kind::Method(method) => {
            let run = MethodRun {
                method,
                script: &inputs.script,
                language: case.language,
                steps: u32::try_from(case.steps).unwrap_or(u32::MAX),
            };
            match device {
                Some(device) => edd_run::play_with_device(image, device, &run, output),
                None => edd_run::play(image, &run, output),
            }
        }
        Kind::Show => edd_run::show(image, &inputs.script, case.language, output),
        Kind::Open => {
            let setup = OpenSetup {
                device,
                script: &inputs.script,
                language: case.language,
                keys: None,
            };
            let typed = case.typed(Global)?;
            edd_run::open(image, &setup, typed.as_bytes(), output).map(drop)
        }
    }
}
