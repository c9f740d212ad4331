//! Characters in comments that turn the direction: what is seen there, and behind it on the line, is
//! not what the compiler reads; and comments that swallow code.

use crate::kind::TextKind;
use crate::source::{Gap, Source};
use crate::warning::Findings;
use edd_source::Span;

/// The first byte of each character that turns the direction.
pub(super) const LEAD: u8 = 0xE2;

/// How many bytes each of them has.
const LENGTH: usize = 3;

/// How many bytes a gap has at least in which a comment is opened twice.
const SHORTEST_NESTED: usize = 6;

/// The fewest bytes of a comment with one.
const SHORTEST: usize = 5;

// The number in Unicode of the character that the text begins with, if it turns the direction.
fn turn_of(text: &[u8]) -> Option<u32> {
    match text {
        [LEAD, 0x80, last @ 0xAA..=0xAE, ..] => Some(0x2000 | u32::from(*last & 0x3F)),
        [LEAD, 0x81, last @ 0xA6..=0xA9, ..] => Some(0x2040 | u32::from(*last & 0x3F)),
        _ => None,
    }
}

// The first of these characters on each line of a gap.
fn check_gap(source: Source<'_>, gap: Gap, findings: &mut Findings<'_>) {
    let bytes = source.slice(gap.span);
    if bytes.len() < SHORTEST || !bytes.contains(&LEAD) {
        return;
    }
    let mut start = gap.span.start;
    for (line, number) in bytes
        .split(|byte| *byte == b'\n')
        .zip(source.first_line(gap)..)
    {
        let mut places = 0..line.len();
        let found = places.find_map(|place| Some((place, turn_of(line.get(place..)?)?)));
        if let Some((place, character)) = found {
            let start = start.saturating_add(place);
            let end = start.saturating_add(LENGTH);
            let kind = TextKind::TurnedComment(character);
            findings.add_span(Span { start, end }, number, kind);
        }
        start = start.saturating_add(line.len()).saturating_add(1);
    }
}

// Whether a comment is opened twice in a gap.
fn has_nested(bytes: &[u8]) -> bool {
    // Each has a star, and so has the end of a comment.
    let stars = bytes.iter().filter(|byte| **byte == b'*').count();
    if stars < 3 {
        return false;
    }
    let opens = bytes.windows(2).filter(|pair| *pair == b"/*");
    1 < opens.take(2).count()
}

// Whether what a comment has before another one begins ends as code does.
fn ends_as_code(text: &[u8]) -> bool {
    let lines = text
        .split(|byte| *byte == b'\n')
        .map(<[u8]>::trim_ascii_end);
    lines
        .into_iter()
        .any(|line| matches!(line, [.., b';' | b'{' | b'}']))
}

// How long the comment, the mark or the blank is that comes first, and whether another comment begins in it
// behind some code.
fn first_of(rest: &[u8]) -> (usize, bool) {
    match rest {
        [b'/', b'*', inner @ ..] => {
            let close = inner.windows(2).position(|pair| pair == b"*/");
            let inner = close.and_then(|close| inner.get(..close)).unwrap_or(inner);
            let again = inner.windows(2).position(|pair| pair == b"/*");
            let before = again.and_then(|again| inner.get(..again));
            (
                inner.len().saturating_add(4),
                before.is_some_and(ends_as_code),
            )
        }
        [b'/', b'/', ..] | [b'#', ..] => {
            let line = rest.iter().position(|byte| *byte == b'\n');
            (line.unwrap_or(rest.len()).max(1), false)
        }
        _ => (1, false),
    }
}

// The comments of a gap in which another one begins behind some code.
fn check_nested(source: Source<'_>, gap: Gap, findings: &mut Findings<'_>) {
    let mut rest = source.slice(gap.span);
    let mut start = gap.span.start;
    let mut line = source.first_line(gap);
    while !rest.is_empty() {
        let (length, swallows) = first_of(rest);
        if swallows {
            let end = start.saturating_add(2);
            findings.add_span(Span { start, end }, line, TextKind::SwallowedCode);
        }
        let (passed, behind) = rest.split_at_checked(length).unwrap_or((rest, &[]));
        let lines = passed.iter().filter(|byte| **byte == b'\n').count();
        line = line.saturating_add(u32::try_from(lines).unwrap_or(u32::MAX));
        start = start.saturating_add(length);
        rest = behind;
    }
}

/// Checks the comments of a source. Lines of a preprocessor are as comments.
pub(super) fn check_comments(source: Source<'_>, findings: &mut Findings<'_>) {
    if source.text.contains(&LEAD) {
        for gap in source.gaps() {
            check_gap(source, gap, findings);
        }
    }
    // Two bytes that open a comment in a comment are rare.
    for gap in source.gaps() {
        let bytes = source.slice(gap.span);
        if SHORTEST_NESTED < bytes.len() && has_nested(bytes) {
            check_nested(source, gap, findings);
        }
    }
}
