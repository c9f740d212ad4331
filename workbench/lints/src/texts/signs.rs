//! Signs in texts that are not what they look like: placeholders that nothing reads, strings that
//! are one, and characters that turn the direction.

use super::comments::LEAD;
use super::spoken::Spoken;
use crate::kind::TextKind;
use crate::source::TokenIndex;
use crate::warning::Findings;
use edd_syntax::symbols::Keyword;

// What is behind the digits, points and signs that come first.
fn behind_width(text: &[u8]) -> &[u8] {
    let is_of_width = |byte: &u8| matches!(*byte, b'0'..=b'9' | b'.' | b'-' | b'+' | b'#');
    let length = text.iter().take_while(|byte| is_of_width(byte)).count();
    text.get(length..).unwrap_or_default()
}

// Whether what comes behind a letter lets it be that of a placeholder, and not of a word.
fn ends_word(behind: &[u8]) -> bool {
    !matches!(
        behind,
        [b'a'..=b'z' | b'A'..=b'Z', ..] | [b'.', b'a'..=b'z', ..]
    )
}

// Whether what comes behind a percent sign makes it a placeholder, as `{..}`, `[..]`, `d` or `4.1f`.
fn is_placeholder(behind: &[u8]) -> bool {
    if matches!(behind, [b'{' | b'[', ..]) {
        return true;
    }
    match behind_width(behind) {
        [b'l' | b'h', b'd' | b'u' | b'x' | b'i', rest @ ..] => ends_word(rest),
        [
            b'd' | b'i' | b'u' | b'x' | b'X' | b'f' | b's' | b'c',
            rest @ ..,
        ] => ends_word(rest),
        _ => false,
    }
}

// Whether a text has a placeholder. After a digit a percent sign is that of a number.
fn has_placeholder(raw: &[u8]) -> bool {
    if !raw.contains(&b'%') {
        return false;
    }
    let mut before = b' ';
    let mut rest = raw;
    while let [byte, behind @ ..] = rest {
        if *byte == b'%' && !before.is_ascii_digit() && is_placeholder(behind) {
            return true;
        }
        before = *byte;
        rest = behind;
    }
    false
}

// Whether a text has letters of Hebrew or Arabic, which are written from right to left.
fn has_leftward_letters(raw: &[u8]) -> bool {
    raw.iter().any(|byte| matches!(*byte, 0xD6..=0xDD))
}

// Whether a text has a character that turns the direction: an override in any text, and an
// embedding or an isolate in one whose letters all go one way.
fn has_turn(raw: &[u8]) -> bool {
    if !raw.contains(&LEAD) {
        return false;
    }
    let is_mixed = has_leftward_letters(raw);
    raw.windows(3).any(|character| match character {
        [LEAD, 0x80, 0xAD | 0xAE] => true,
        [LEAD, 0x80, 0xAA..=0xAC] | [LEAD, 0x81, 0xA6..=0xA9] => !is_mixed,
        _ => false,
    })
}

// The string at which two texts are one that may be meant as two: where a list takes another text.
fn joined_at(spoken: &Spoken<'_>) -> Option<TokenIndex> {
    match spoken.section? {
        Keyword::Items => spoken.seam,
        Keyword::Type | Keyword::DefaultValue | Keyword::Members | Keyword::Elements
            if spoken.is_after_comma && !spoken.is_before_comma =>
        {
            spoken.seam
        }
        Keyword::Label | Keyword::Help | Keyword::Definition | Keyword::ResponseCodes => {
            spoken.run_on
        }
        _ => None,
    }
}

// Whether nothing is shown in place of what a text has.
fn is_shown_as_it_is(spoken: &Spoken<'_>) -> bool {
    !matches!(
        spoken.section,
        Some(Keyword::DisplayFormat | Keyword::EditFormat | Keyword::ConstantUnit)
    )
}

/// Checks the signs in the texts of a description.
pub(super) fn check_signs(texts: &[Spoken<'_>], findings: &mut Findings<'_>) {
    for spoken in texts {
        if is_shown_as_it_is(spoken) && has_placeholder(&spoken.raw) {
            findings.add(spoken.at, TextKind::Placeholder);
        }
        if let Some(at) = joined_at(spoken) {
            findings.add(at, TextKind::JoinedTexts);
        }
        if has_turn(&spoken.raw) {
            findings.add(spoken.at, TextKind::TurnedText);
        }
    }
}
