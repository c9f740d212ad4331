//! Shows images, runs methods and opens instruments. The core compiles, loads, runs and prints; this
//! package makes its calls in their order.
//!
//! ```
//! use core_std::{alloc::Global, vec::Vec};
//!
//! let source = b"MANUFACTURER 1, DEVICE_TYPE 2, DEVICE_REVISION 3, DD_REVISION 4
//!     VARIABLE p { TYPE INTEGER; } METHOD m { DEFINITION { p = 5; } }";
//! let image = edd_run::compile(source)?;
//! let run = edd_run::MethodRun { method: "m", script: b"", language: "en", steps: 100 };
//! let mut output = Vec::new(Global);
//! edd_run::play(&image, &run, &mut output)?;
//! assert_eq!(output.as_slice(), b"end ended\nvalue p 5\n");
//! # Ok::<(), edd_run::RunError>(())
//! ```

mod error;
mod open;
mod play;
mod show;

use core_std::alloc::Global;
use edd_compiler::Fault;
pub use error::RunError;
pub use open::{Keys, OpenSetup, open};
pub use play::{MethodRun, find_method, play, play_with_device};
pub use show::show;

/// The source of a simulated device, with the name that its user gives it.
#[derive(Clone, Copy, Debug)]
pub struct DeviceSource<'a> {
    /// The name of its file.
    pub name: &'a str,
    /// The source.
    pub text: &'a [u8],
}

impl DeviceSource<'_> {
    /// Returns the image of the device.
    ///
    /// # Errors
    ///
    /// The source is refused, or memory is.
    pub fn compile(self) -> Result<Vec<u8>, RunError> {
        compile_or(self.text, |refusal| RunError::Device {
            name: self.name.to_owned(),
            refusal,
        })
    }
}

/// Returns the image of a source.
///
/// # Errors
///
/// The source is refused, or memory is.
pub fn compile(source: &[u8]) -> Result<Vec<u8>, RunError> {
    compile_or(source, RunError::Source)
}

/// Whether a file holds an image, or what was one, and no source.
///
/// ```
/// assert!(edd_run::is_image(b"EDI1"));
/// assert!(!edd_run::is_image(b"MANUFACTURER 1"));
/// ```
pub fn is_image(bytes: &[u8]) -> bool {
    bytes.starts_with(b"EDI1")
}

fn compile_or(
    source: &[u8],
    refused: impl FnOnce(String) -> RunError,
) -> Result<Vec<u8>, RunError> {
    match edd_compiler::compile(Global, source) {
        Ok(image) => Ok(image.into_real()),
        Err(Fault::Memory) => Err(RunError::Memory),
        Err(fault) => Err(refused(fault.refusal(Global, source)?.as_str().to_owned())),
    }
}
