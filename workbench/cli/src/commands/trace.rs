//! `edd try --trace`: how a run of a method came about.

use crate::failure::Failure;
use core_std::alloc::Global;
use edd_loader::load;
use edd_run::{DeviceSource, MethodRun, RunError};
use edd_source::Source;
use edd_trace::{Description, TraceLines};
use std::io::Write;

/// Prints the trace of a run of a method, which was not refused.
pub(crate) fn print(
    description: &Description<'_>,
    source: &Source<'_>,
    run: &MethodRun<'_>,
    device: Option<DeviceSource<'_>>,
    out: &mut impl Write,
) -> Result<(), Failure> {
    let image = load(Global, description.image()).map_err(RunError::from)?;
    let device_bytes = device.map(DeviceSource::compile).transpose()?;
    let device_image = match &device_bytes {
        Some(bytes) => Some(load(Global, bytes).map_err(RunError::from)?),
        None => None,
    };
    let events = edd_trace::trace(description, &image, run, device_image.as_ref())?;
    let lines = TraceLines {
        source,
        image: &image,
        events: &events,
    };
    // In one piece: an output takes many small ones slowly.
    out.write_all(lines.to_string().as_bytes())?;
    Ok(())
}
