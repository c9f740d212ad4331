//! Markers.
pub use core::marker::*;

/// Says that contracts see a type as something else, which plain code does not.
pub trait Model {}
