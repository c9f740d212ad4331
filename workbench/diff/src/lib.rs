//! What differs between two descriptions: what `edd diff` prints.
//!
//! [`Differences::between`] compares two images. It matches items by kind and name, decompiles the code
//! of attributes to expressions and conditions, and compares texts language by language:
//!
//! ```
//! use core_std::alloc::Global;
//! use edd_diff::{Change, Differences, Note, Value};
//!
//! let describe = |most| {
//!     let source = format!(
//!         "MANUFACTURER 1, DEVICE_TYPE 2, DEVICE_REVISION 3, DD_REVISION 4
//!          VARIABLE flow {{ TYPE INTEGER (2) {{ MAX_VALUE {most}; }} }}"
//!     );
//!     edd_compiler::compile(Global, source.as_bytes()).unwrap()
//! };
//! let (old, new) = (describe(100), describe(90));
//! let old = edd_loader::load(Global, &old).unwrap();
//! let new = edd_loader::load(Global, &new).unwrap();
//!
//! let differences = Differences::between(&old, &new);
//! let [difference] = differences.all() else { panic!("one difference") };
//! assert_eq!(difference.note, Some(Note::Narrower));
//! assert_eq!(difference.change.new_value(), Some(&Value::Source("90".into())));
//! assert_eq!(
//!     differences.to_string(),
//!     "variable flow\n  MAX_VALUE 100 -> 90, narrower\ndifferences 1, breaking 0\n",
//! );
//! ```
//!
//! Two sources with the same image do not differ, whatever their layout and their comments.

mod attributes;
mod content;
mod description;
mod difference;
mod expression;
mod items;
mod json;
mod lines;
mod lists;
mod methods;
mod reading;
mod records;

pub use difference::{Change, Difference, Differences, Item, Note, Value, What};
