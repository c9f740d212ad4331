//! The values of a device.

use crate::memory::Global;
use crate::{Image, SetFault, ValuesFault};
use edd_machine::set_fault;
use edd_syntax::numbers::VarNo;
use std::fmt;

/// What a device holds, as far as the program knows: one number for each variable of an image, each
/// in the range of its type and size.
///
/// ```
/// use edd::{SetFault, Values, ValuesFault, VarNo};
///
/// let image = edd::compile(
///     b"MANUFACTURER 1, DEVICE_TYPE 2, DEVICE_REVISION 3, DD_REVISION 4
///       VARIABLE p { TYPE INTEGER (1); }",
/// )?;
/// let mut values = Values::new(&image, &[-128])?;
/// values.set(VarNo(0), 127)?;
/// assert_eq!(values.get(VarNo(0)), Some(127));
/// assert_eq!(values.set(VarNo(0), 128), Err(SetFault::OutOfRange));
/// assert_eq!(values.set(VarNo(1), 0), Err(SetFault::BadVariable));
/// assert_eq!(Values::new(&image, &[]), Err(ValuesFault::Count));
/// # Ok::<(), Box<dyn std::error::Error>>(())
/// ```
pub struct Values {
    image: Image,
    // In the ranges of the image's variables, as many as these.
    core: edd_machine::Values,
}

impl Values {
    /// These numbers, if they are values of a device of this image.
    ///
    /// # Errors
    ///
    /// There are more or fewer numbers than variables, or one is out of the range of its variable.
    pub fn new(image: &Image, numbers: &[i64]) -> Result<Values, ValuesFault> {
        match edd_machine::Values::new(Global, &image.reopen(), numbers) {
            Ok(core) => Ok(Values::from_core(image, core)),
            Err(fault) => Err(ValuesFault::from_core(fault)),
        }
    }

    /// These numbers where they are given, and for each other variable its DEFAULT_VALUE under the
    /// values so far, or 0 within its limits.
    ///
    /// # Errors
    ///
    /// As of [`Values::new`].
    pub fn with_defaults(image: &Image, given: &[Option<i64>]) -> Result<Values, ValuesFault> {
        match edd_panel::start_values(Global, &image.reopen(), given) {
            Ok(core) => Ok(Values::from_core(image, core)),
            Err(fault) => Err(ValuesFault::from_core(fault)),
        }
    }

    pub(crate) fn zeros(image: &Image) -> Values {
        // 0 is in the range of each type.
        let numbers = vec![0; usize::from(image.counts().variables)];
        Values::from_core(image, core_values(numbers))
    }

    pub(crate) fn start(image: &Image) -> Values {
        let none = vec![None; usize::from(image.counts().variables)];
        // Where nothing is given, nothing is out of range, so there is no fault.
        Values::with_defaults(image, &none).unwrap_or_else(|_| Values::zeros(image))
    }

    /// Values that the core left for this image.
    pub(crate) fn from_core(image: &Image, core: edd_machine::Values) -> Values {
        Values {
            image: image.clone(),
            core,
        }
    }

    pub(crate) fn core(&self) -> &edd_machine::Values {
        &self.core
    }

    pub(crate) fn into_core(self) -> edd_machine::Values {
        self.core
    }

    /// The values, until [`Values::put_core`] puts them back. Nobody may see what is left.
    pub(crate) fn take_core(&mut self) -> edd_machine::Values {
        std::mem::replace(&mut self.core, core_values(Vec::new()))
    }

    pub(crate) fn put_core(&mut self, core: edd_machine::Values) {
        self.core = core;
    }

    /// The image whose device has these values.
    pub fn image(&self) -> &Image {
        &self.image
    }

    /// Whether they are values for this image, or for one with the same bytes.
    pub(crate) fn are_of(&self, image: &Image) -> bool {
        self.image == *image
    }

    /// The values by the numbers of their variables.
    pub fn numbers(&self) -> &[i64] {
        self.core.numbers.as_slice()
    }

    /// The value of a variable, if there is such a variable.
    pub fn get(&self, variable: VarNo) -> Option<i64> {
        self.core.get(variable)
    }

    /// Sets a variable.
    ///
    /// # Errors
    ///
    /// There is no such variable, or the value is out of its range. Then nothing changes.
    pub fn set(&mut self, variable: VarNo, value: i64) -> Result<(), SetFault> {
        if let Some(fault) = set_fault(&self.image.reopen(), variable, value) {
            return Err(SetFault::from_core(fault));
        }
        let numbers = self.core.numbers.as_mut_slice();
        match numbers.get_mut(usize::from(variable.0)) {
            Some(number) => {
                *number = value;
                Ok(())
            }
            None => Err(SetFault::BadVariable),
        }
    }
}

fn core_values(numbers: Vec<i64>) -> edd_machine::Values {
    edd_machine::Values {
        numbers: core_std::vec::Vec::from_real(numbers),
    }
}

impl Clone for Values {
    fn clone(&self) -> Values {
        Values::from_core(&self.image, core_values(self.numbers().to_vec()))
    }
}

impl PartialEq for Values {
    fn eq(&self, other: &Values) -> bool {
        self.numbers() == other.numbers() && self.image == other.image
    }
}

impl Eq for Values {}

impl fmt::Debug for Values {
    fn fmt(&self, f: &mut fmt::Formatter<'_>) -> fmt::Result {
        f.debug_tuple("Values").field(&self.numbers()).finish()
    }
}
