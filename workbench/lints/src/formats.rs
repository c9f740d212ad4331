//! Formats that are none of whole numbers.

use crate::kind::VariableKind;
use crate::lists::values_in;
use crate::source::index;
use crate::warning::Findings;
use edd_syntax::item::TypePart;
use edd_syntax::reference::Target;
use edd_syntax::text::Text;

/// Whether a text is a format of a whole number: signs, a width, a precision, and a letter.
fn is_format(text: &str) -> bool {
    let rest = text.trim_start_matches(['-', '+', ' ', '#', '0']);
    let rest = rest.trim_start_matches(|sign: char| sign.is_ascii_digit());
    let rest = match rest.strip_prefix('.') {
        Some(precision) => precision.trim_start_matches(|sign: char| sign.is_ascii_digit()),
        None => rest,
    };
    matches!(rest, "d" | "i" | "u" | "o" | "x" | "X")
}

/// Checks the formats of a type.
pub(crate) fn check_formats(parts: &[TypePart<Target>], findings: &mut Findings<'_>) {
    for part in parts {
        let TypePart::OneFormat { at, format, .. } = part else {
            continue;
        };
        for listed in values_in(format) {
            if let Text::Quoted(text) = listed.value
                && !is_format(text.as_str())
            {
                findings.add(index(*at), VariableKind::MeaninglessFormat);
            }
        }
    }
}
