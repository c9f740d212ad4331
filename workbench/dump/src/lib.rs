//! An image laid open: what `edd dump` prints.
//!
//! A [`Dump`] prints the header, the sections, the items, the elements of arrays, the strings, and
//! each attribute row with its instructions. For bytes that are no image it prints what precedes the
//! fault, and then its place:
//!
//! ```
//! use edd_dump::Dump;
//!
//! let dump = Dump::new(b"EDI1\0\x03");
//! let lines: Vec<String> = dump.to_string().lines().map(String::from).collect();
//! assert_eq!(lines, ["header magic 45 44 49 31", "header version 3", "fault 6 header"]);
//! assert!(dump.fault().is_some_and(|fault| fault.to_string() == "101 SHORT"));
//! ```
//!
//! The core decides which rule the bytes break, and where (`fault_in` of `edd_loader`). [`Sections`]
//! and [`variants`] give access to the parts of an image that `edd_loader::Image` hides.

pub mod core_format;
mod depth;
mod dump;
mod fault;
mod header;
mod instructions;
mod lines;
mod sections;
mod strings;

pub use dump::Dump;
pub use sections::{AttributeRow, Sections, Span};
pub use strings::{Variant, string_text, variants};
