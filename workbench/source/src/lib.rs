//! A source as its readers see it: spans of its bytes, its lines, its tokens and braces, and edits
//! of it.
//!
//! A [`Source`] has the name of a file, its [`Lines`] and the [`Originals`] from which a preprocessor
//! made it. It says where a [`Span`] is shown:
//!
//! ```
//! use edd_source::{Source, Span};
//!
//! let source = Source::new("p.edd", b"VARIABLE p\n{ TYPE FLOAT; }");
//! let spot = source.spot(Span { start: 18, end: 23 });
//! assert_eq!((spot.file, spot.line, spot.column, spot.width), ("p.edd", 2, 8, 5));
//! assert_eq!(spot.text, "{ TYPE FLOAT; }");
//! ```

mod alignment;
mod fix;
mod lines;
mod marks;
mod originals;
mod outline;
pub mod pieces;
mod span;
mod spots;
pub mod tokens;

pub use fix::{Confidence, Edit, Fix};
pub use lines::{Lines, Place};
pub use marks::Origin;
pub use originals::Originals;
pub use outline::{Declared, Outline};
pub use span::Span;
pub use spots::{Source, Spot};
