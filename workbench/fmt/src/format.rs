//! A source in its layout.

use crate::tokens::Tokens;
use crate::units::Units;
use crate::writer::Writer;
use core_std::alloc::Global;
use core_std::vec::Vec as CoreVec;
use edd_lexer::fault::LexFault;
use edd_lexer::lex;
use std::str;

/// Drafts the layout of a source, for callers that have the core save it. The core decides whether a
/// draft is taken.
///
/// # Errors
///
/// The source has no tokens.
///
/// ```
/// assert_eq!(edd_fmt::draft(b"a  &&b")?, b"a && b\n");
/// # Ok::<(), edd_fmt::LexFault>(())
/// ```
pub fn draft(source: &[u8]) -> Result<Vec<u8>, LexFault> {
    let tokens = lex(Global, source)?;
    let drafted = str::from_utf8(source).ok().and_then(|text| {
        let tokens = Tokens::new(text, &tokens);
        let units = Units::read(&tokens);
        Writer::new(&tokens, &units).write_all()
    });
    Ok(drafted.map_or_else(|| source.to_vec(), String::into_bytes))
}

/// Returns a source in its layout: the same tokens and comments, with other blanks and line ends
/// between them. A source whose layout would be longer than a source may be stays as it is.
///
/// # Errors
///
/// The source has no tokens.
///
/// ```
/// use edd_fmt::LexFault;
///
/// assert_eq!(edd_fmt::format(b"HELP  [ help ] ;")?, b"HELP [help];\n");
/// assert_eq!(edd_fmt::format(b"HELP \"x"), Err(LexFault::OpenString { line: 1 }));
/// # Ok::<(), LexFault>(())
/// ```
pub fn format(source: &[u8]) -> Result<Vec<u8>, LexFault> {
    let draft = draft(source)?;
    let formatted = edd_layout::laid_out(Global, source, CoreVec::from_real(draft))?;
    Ok(formatted.into_real())
}
