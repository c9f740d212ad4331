//! A user at an instrument.

use crate::{DeviceSource, RunError};
use core_std::alloc::Global;
use core_std::io::{Read, Write};
use core_std::string::String as CoreString;
use edd_device::Device;
use edd_loader::{Image, load};
use edd_machine::ValuesFault;
use edd_panel::{Panel, start_values};
use legacy_panel_lines::push_start;
use legacy_sitting::{Console, Lines, Size, Terminal, converse, converse_by_keys};

/// A terminal in raw mode, whose keys are read.
#[derive(Clone, Copy, Debug, PartialEq, Eq)]
pub struct Keys {
    /// Its rows, at least two.
    pub rows: usize,
    /// Its columns, at least one.
    pub columns: usize,
    /// Whether a read that gives nothing says that a second has passed, and not that the input is at
    /// its end.
    pub has_seconds: bool,
}

/// How an instrument is opened.
#[derive(Clone, Copy, Debug)]
pub struct OpenSetup<'a> {
    /// The simulated device, if there is one.
    pub device: Option<DeviceSource<'a>>,
    /// The values that the instrument starts with.
    pub script: &'a [u8],
    /// The language of the texts.
    pub language: &'a str,
    /// Where keys are read and no lines, their terminal.
    pub keys: Option<Keys>,
}

/// Opens an image, does what a user types, and returns what was set and answered as a script.
///
/// # Errors
///
/// The image, the script or the source of the device is refused, the input or the output fails, or
/// there is no memory.
///
/// ```
/// use core_std::{alloc::Global, vec::Vec};
/// use edd_run::OpenSetup;
///
/// let source = b"MANUFACTURER 1, DEVICE_TYPE 2, DEVICE_REVISION 3, DD_REVISION 4
///     VARIABLE p { LABEL \"Pressure\"; TYPE INTEGER; }";
/// let image = edd_run::compile(source)?;
/// let setup = OpenSetup { device: None, script: b"", language: "en", keys: None };
/// let mut output = Vec::new(Global);
/// let record = edd_run::open(&image, &setup, b"1\n7\nq\n".as_slice(), &mut output)?;
/// assert_eq!(record, "set p 7\n");
/// # Ok::<(), edd_run::RunError>(())
/// ```
pub fn open(
    image: &[u8],
    setup: &OpenSetup<'_>,
    input: impl Read,
    output: &mut impl Write,
) -> Result<String, RunError> {
    let instrument = load(Global, image)?;
    let Some(source) = setup.device else {
        return talk(&instrument, None, setup, input, output);
    };
    let device_bytes = source.compile()?;
    let device_image = load(Global, &device_bytes)?;
    let device = Device::new(Global, &instrument, &device_image)?;
    talk(device.instrument(), Some(device), setup, input, output)
}

fn talk(
    image: &Image<'_>,
    mut device: Option<Device<'_, '_>>,
    setup: &OpenSetup<'_>,
    input: impl Read,
    output: &mut impl Write,
) -> Result<String, RunError> {
    let given = edd_script::parse_sets(Global, image, setup.script)?;
    let values = start_values(Global, image, &given)?;
    let mut record = CoreString::new(Global);
    push_start(&mut record, image, &values)?;
    let mut panel = Panel::open(Global, image, setup.language, values)
        .ok_or(RunError::Values(ValuesFault::Range))?;
    match setup.keys {
        Some(Keys {
            rows,
            columns,
            has_seconds,
        }) => {
            let mut terminal = Terminal::new(input, Size { rows, columns }, has_seconds, output);
            converse_by_keys(Global, &mut panel, &mut device, &mut terminal, &mut record)?;
        }
        None => {
            let mut console = Console {
                input: Lines::new(input),
                out: output,
            };
            converse(Global, &mut panel, &mut device, &mut console, &mut record)?;
        }
    }
    Ok(record.as_str().to_owned())
}
