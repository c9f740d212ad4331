//! What a source needs no path for.
pub mod v1 {
    pub use crate::Droppable as Drop;
    pub use crate::alloc::{Alloc, AllocGlobal};
    pub use crate::boxed::Box;
    #[cfg(feature = "host")]
    pub use crate::rt::{Abort, Eprint, HostRuntime, Input, Print};
    pub use crate::string::{String, ToOwnedText, ToText};
    pub use crate::vec::Vec;
}
