//! The layout of sources.

use crate::Refusal;
use crate::refusal::refusal_of_text;

/// Lays a source out: the same tokens and comments, with other blanks and line ends between them.
/// docs/LAYOUT.md describes the layout.
///
/// # Errors
///
/// The source has no tokens.
///
/// ```
/// let laid_out = edd::format(b"VARIABLE p{TYPE INTEGER(2);}")?;
/// assert_eq!(
///     String::from_utf8_lossy(&laid_out),
///     "VARIABLE p {\n    TYPE INTEGER (2);\n}\n",
/// );
/// # Ok::<(), edd::Refusal>(())
/// ```
pub fn format(source: &[u8]) -> Result<Vec<u8>, Refusal> {
    edd_fmt::format(source).map_err(|fault| refusal_of_text(&fault))
}
