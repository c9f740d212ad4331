//! A view of an image, which panels and devices borrow.

use crate::Image;
use std::fmt;

/// A view of an image. A [`Panel`](crate::Panel) and a [`Device`](crate::Device) borrow it, so it
/// is kept as long as they are used.
///
/// ```
/// let image = edd::compile(include_bytes!("../../../examples/first.edd"))?;
/// let opened = image.open();
/// let panel = edd::Panel::open(&opened, "en", image.start_values())?;
/// assert_eq!(panel.screen().rows.len(), 1);
/// # Ok::<(), Box<dyn std::error::Error>>(())
/// ```
#[derive(Clone)]
pub struct Opened<'b> {
    image: &'b Image,
    core: edd_loader::Image<'b>,
}

impl<'b> Opened<'b> {
    pub(crate) fn new(image: &'b Image) -> Opened<'b> {
        Opened {
            image,
            core: image.reopen(),
        }
    }

    /// The image.
    pub fn image(&self) -> &'b Image {
        self.image
    }

    pub(crate) fn core(&self) -> &edd_loader::Image<'b> {
        &self.core
    }
}

impl fmt::Debug for Opened<'_> {
    fn fmt(&self, f: &mut fmt::Formatter<'_>) -> fmt::Result {
        f.debug_tuple("Opened").field(self.image).finish()
    }
}
