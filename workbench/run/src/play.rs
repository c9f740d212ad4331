//! Runs of methods.

use crate::{DeviceSource, RunError};
use core_std::alloc::Global;
use core_std::io::Write;
use edd_device::Device;
use edd_display::show_play;
use edd_loader::{Image, load};
use edd_machine::Values;
use edd_syntax::numbers::{ItemNo, MethNo};
use legacy_sitting::fault_text;

/// A run of a method that is asked for.
#[derive(Clone, Copy, Debug)]
pub struct MethodRun<'a> {
    /// The name of the method.
    pub method: &'a str,
    /// The values of variables, and the answers.
    pub script: &'a [u8],
    /// The language of the texts.
    pub language: &'a str,
    /// The most instructions.
    pub steps: u32,
}

/// Finds the method of a name.
///
/// # Errors
///
/// There is none.
pub fn find_method(image: &Image<'_>, name: &str) -> Result<MethNo, RunError> {
    match image.find(name) {
        Some(ItemNo::Method(number)) => Ok(number),
        _ => Err(RunError::NoMethod(name.to_owned())),
    }
}

/// Runs a method of an image, and prints what it did.
///
/// # Errors
///
/// The image or the script is refused, there is no such method, an answer is out of its range, the
/// output takes nothing, or there is no memory.
pub fn play(image: &[u8], run: &MethodRun<'_>, output: &mut impl Write) -> Result<(), RunError> {
    let image = load(Global, image)?;
    let script = edd_script::parse(Global, &image, run.script)?;
    let method = find_method(&image, run.method)?;
    let values = Values::new(Global, &image, &script.values)?;
    let steps = run.steps.into();
    let played = edd_port::play(Global, &image, method, values, &script.answers, steps)?;
    show_play(Global, &image, &played, run.language, output)?;
    Ok(())
}

/// Runs a method of an image with a simulated device that starts, and prints what it did.
///
/// # Errors
///
/// As of [`play`]; the source of the device is refused; or the device had no answer, which is
/// returned when the lines of the run are printed.
///
/// ```
/// use core_std::{alloc::Global, vec::Vec};
/// use edd_run::{DeviceSource, MethodRun};
///
/// let head = "MANUFACTURER 1, DEVICE_TYPE 2, DEVICE_REVISION 3, DD_REVISION 4\n";
/// let source = format!("{head} METHOD m {{ DEFINITION {{ send_command(1); }} }}");
/// let device = DeviceSource { name: "d", text: head.as_bytes() };
/// let run = MethodRun { method: "m", script: b"", language: "en", steps: 100 };
/// let image = edd_run::compile(source.as_bytes())?;
/// let mut output = Vec::new(Global);
/// let ended = edd_run::play_with_device(&image, device, &run, &mut output);
/// assert_eq!(output.as_slice(), b"ask send_command 1\nend aborted\n");
/// assert_eq!(ended.unwrap_err().to_string(), "refused 274 NO_COMMAND 1");
/// # Ok::<(), edd_run::RunError>(())
/// ```
pub fn play_with_device(
    image: &[u8],
    device: DeviceSource<'_>,
    run: &MethodRun<'_>,
    output: &mut impl Write,
) -> Result<(), RunError> {
    let instrument = load(Global, image)?;
    let device_bytes = device.compile()?;
    let device_image = load(Global, &device_bytes)?;
    let script = edd_script::parse(Global, &instrument, run.script)?;
    let method = find_method(&instrument, run.method)?;
    let values = Values::new(Global, &instrument, &script.values)?;
    let mut device = Device::new(Global, &instrument, &device_image)?;
    let trial = device.play(Global, method, values, &script.answers, run.steps)?;
    show_play(Global, &instrument, &trial.transcript, run.language, output)?;
    match trial.fault {
        None => Ok(()),
        Some(fault) => {
            let text = fault_text(Global, &instrument, &device_image, fault)?;
            Err(RunError::NoAnswer(text.as_str().to_owned()))
        }
    }
}
