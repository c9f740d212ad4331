//! What an image shows.

use crate::RunError;
use core_std::alloc::Global;
use core_std::io::Write;
use edd_loader::load;
use edd_machine::Values;

/// Prints what an image shows under the values that a script sets.
///
/// # Errors
///
/// The image or the script is refused, the output takes nothing, or there is no memory.
///
/// ```
/// use core_std::{alloc::Global, vec::Vec};
///
/// let source = b"MANUFACTURER 1, DEVICE_TYPE 2, DEVICE_REVISION 3, DD_REVISION 4";
/// let mut output = Vec::new(Global);
/// edd_run::show(&edd_run::compile(source)?, b"", "en", &mut output)?;
/// assert_eq!(output.as_slice(), b"identification 1 2 3 4\n");
/// # Ok::<(), edd_run::RunError>(())
/// ```
pub fn show(
    image: &[u8],
    script: &[u8],
    language: &str,
    output: &mut impl Write,
) -> Result<(), RunError> {
    let image = load(Global, image)?;
    let script = edd_script::parse(Global, &image, script)?;
    let values = Values::new(Global, &image, &script.values)?;
    edd_display::show(Global, &image, &values, language, output)?;
    Ok(())
}
