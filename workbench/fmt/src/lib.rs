//! The layout of descriptions, which docs/LAYOUT.md describes.
//!
//! This package drafts a layout. The core takes a draft only where it has the tokens and comments of
//! the source.
//!
//! ```
//! let formatted = edd_fmt::format(b"VARIABLE p{TYPE INTEGER(2);}")?;
//! assert_eq!(formatted, b"VARIABLE p {\n    TYPE INTEGER (2);\n}\n");
//! # Ok::<(), edd_fmt::LexFault>(())
//! ```

mod comments;
mod difference;
mod edits;
mod format;
mod frames;
mod pairs;
mod places;
mod roles;
mod spacing;
mod steps;
mod tokens;
mod units;
mod writer;

pub use difference::unified_diff;
pub use edd_lexer::fault::LexFault;
pub use edits::find_edits;
pub use format::{draft, format};
