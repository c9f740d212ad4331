//! The dump as a whole.

use crate::fault::{write_fault, write_header_fault};
use crate::header::Header;
use crate::lines::{
    write_elements, write_items, write_rows, write_sections, write_strings, write_units,
};
use crate::sections::Sections;
use core_std::alloc::{AllocError, Global};
use edd_loader::{LoadFault, Spot, fault_in};
use std::alloc::{Layout, handle_alloc_error};
use std::fmt::{self, Formatter};

/// An image in printed form. `Display` prints its lines.
pub struct Dump<'b> {
    bytes: &'b [u8],
    broken: Option<(LoadFault, Spot)>,
}

impl<'b> Dump<'b> {
    /// Asks the core for the fault of the bytes, if they have one.
    pub fn new(bytes: &'b [u8]) -> Dump<'b> {
        match fault_in(Global, bytes) {
            Ok(broken) => Dump { bytes, broken },
            Err(AllocError) => handle_alloc_error(Layout::new::<u8>()),
        }
    }

    /// The fault for which `load` refuses the bytes, if it does.
    pub fn fault(&self) -> Option<LoadFault> {
        self.broken.map(|(fault, _)| fault)
    }
}

impl fmt::Debug for Dump<'_> {
    fn fmt(&self, f: &mut Formatter<'_>) -> fmt::Result {
        let mut shown = f.debug_struct("Dump");
        shown.field("length", &self.bytes.len());
        shown.field("fault", &self.fault()).finish()
    }
}

impl fmt::Display for Dump<'_> {
    fn fmt(&self, f: &mut Formatter<'_>) -> fmt::Result {
        let header = Header::read(self.bytes);
        for field in header.fields_before(self.fault()) {
            writeln!(f, "header {field}")?;
        }
        let in_header = self
            .broken
            .and_then(|(fault, spot)| header.fault(fault, spot));
        if let Some(fault) = in_header {
            return write_header_fault(f, self.bytes, &fault);
        }
        // The header is sound here, so the sections are inside the bytes.
        let Some(sections) = Sections::read(self.bytes) else {
            return Ok(());
        };
        write_sections(f, &sections)?;
        let spot = self.broken.map(|(_, spot)| spot);
        write_before(f, &sections, spot)?;
        spot.map_or(Ok(()), |spot| write_fault(f, &sections, spot))
    }
}

/// Prints the items, rows, elements and strings before a fault, or all of them. Units are printed only
/// if all rows are sound: overlapping rows could print a short piece of code any number of times.
fn write_before(f: &mut Formatter<'_>, sections: &Sections<'_>, spot: Option<Spot>) -> fmt::Result {
    let all = usize::MAX;
    match spot {
        Some(Spot::VariableRow(number) | Spot::NameRow(number) | Spot::Name(number)) => {
            write_items(f, sections, number)
        }
        Some(Spot::AttributeRow(number)) => {
            write_items(f, sections, all)?;
            write_rows(f, sections, number)
        }
        Some(Spot::ElementRow(number)) => {
            write_items(f, sections, all)?;
            write_elements(f, sections, number)
        }
        Some(Spot::StringRow(number) | Spot::String(number)) => {
            write_items(f, sections, all)?;
            write_elements(f, sections, all)?;
            write_strings(f, sections, number)
        }
        _ => {
            write_items(f, sections, all)?;
            write_elements(f, sections, all)?;
            write_strings(f, sections, all)?;
            write_units(f, sections)
        }
    }
}
