//! What only some systems have.
#[cfg(unix)]
pub use crate::real::os::fd;

#[cfg(unix)]
pub mod unix {
    pub mod fs {
        use crate::io::Result;
        use crate::path::Named;
        use crate::real::os::unix::fs as real;
        pub use real::{FileTypeExt, MetadataExt, PermissionsExt};

        pub fn symlink<R, P: Named, Q: Named>(_: &R, old: P, new: Q) -> Result<()> {
            real::symlink(old.path(), new.path())
        }
    }
}
