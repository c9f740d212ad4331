//! A layout as edits of its source, for editors.

use crate::format::format;
use core_std::alloc::Global;
use edd_lexer::fault::LexFault;
use edd_lexer::lex;
use edd_lexer::token::Token;
use edd_source::{Edit, Span};

/// Returns the edits that give a source its layout, in the order of the source: one for each gap
/// between two tokens that changes. An editor takes those of a range to format that range.
///
/// # Errors
///
/// The source has no tokens.
///
/// ```
/// let edits = edd_fmt::find_edits("HELP [help] ;\n")?;
/// let [edit] = edits.as_slice() else { panic!("{edits:?}") };
/// assert_eq!((edit.span.start, edit.span.end, edit.text.as_str()), (11, 12, ""));
/// # Ok::<(), edd_fmt::LexFault>(())
/// ```
pub fn find_edits(source: &str) -> Result<Vec<Edit>, LexFault> {
    let formatted = String::from_utf8(format(source.as_bytes())?).unwrap_or_default();
    let before = lex(Global, source.as_bytes())?;
    let after = lex(Global, formatted.as_bytes())?;
    let edits = gaps(source, &before)
        .zip(gaps(&formatted, &after))
        .filter_map(|(span, new)| {
            let text = new.text(&formatted).unwrap_or_default();
            (span.text(source) != Some(text)).then(|| Edit {
                span,
                text: text.to_owned(),
            })
        });
    Ok(edits.collect())
}

/// The gaps before each token of a text and behind the last one.
fn gaps(text: &str, tokens: &[Token]) -> impl Iterator<Item = Span> {
    let starts = tokens.iter().map(|token| Span::of(token).start);
    let ends = tokens.iter().map(|token| Span::of(token).end);
    std::iter::once(0)
        .chain(ends)
        .zip(starts.chain(std::iter::once(text.len())))
        .map(|(start, end)| Span { start, end })
}
