//! Whether a word comes about by typing another one.

/// Parts of a name as short as this one are chosen: `in` and `on`, `min` and `max`.
const SHORT: usize = 3;

/// How two words differ.
#[derive(Clone, Copy)]
pub(crate) enum Slips {
    /// Two neighbours are swapped, or words are joined in another way, as by capitals.
    Swapped,
    /// As by typing.
    Typed,
    /// As two names that stand side by side.
    Chosen,
}

/// Where two words of one length differ.
#[derive(Clone, Copy)]
struct Places {
    count: usize,
    last: usize,
    are_swapped: bool,
}

fn places_in(one: &str, other: &str) -> Places {
    let mut found = Places {
        count: 0,
        last: 0,
        are_swapped: false,
    };
    let mut one_before = 0;
    let mut other_before = 0;
    for (number, (a, b)) in one.bytes().zip(other.bytes()).enumerate() {
        if a != b {
            found.count = found.count.saturating_add(1);
            found.last = number;
            found.are_swapped = one_before == b && other_before == a;
        }
        one_before = a;
        other_before = b;
    }
    found
}

// Whether two words are the same but for `_` and capitals.
fn have_same_letters(one: &str, other: &str) -> bool {
    let one = one.bytes().filter(|byte| *byte != b'_');
    let other = other.bytes().filter(|byte| *byte != b'_');
    one.map(|byte| byte.to_ascii_lowercase())
        .eq(other.map(|byte| byte.to_ascii_lowercase()))
}

fn have_same_digits(one: &str, other: &str) -> bool {
    let one = one.bytes().filter(|byte| byte.is_ascii_digit());
    one.eq(other.bytes().filter(|byte| byte.is_ascii_digit()))
}

// Whether the short parts between `_` are the same.
fn has_short_parts_of(one: &str, other: &str) -> bool {
    let mut parts = one.split('_').zip(other.split('_'));
    parts.all(|(a, b)| SHORT < a.len().min(b.len()) || a.eq_ignore_ascii_case(b))
}

/// How two words differ which so many edits part.
pub(crate) fn slips_between(one: &str, other: &str, edits: usize) -> Slips {
    if have_same_letters(one, other) {
        return Slips::Swapped;
    }
    if one.len() == other.len() {
        let found = places_in(one, other);
        let is_inside = 0 < found.last && found.last.saturating_add(1) < one.len();
        match found.count {
            1 if !is_inside => return Slips::Chosen,
            2 if found.are_swapped => return Slips::Swapped,
            2 => return Slips::Chosen,
            _ => {}
        }
    }
    let has_parts_of = one.split('_').count() == other.split('_').count();
    let are_near = if has_parts_of {
        has_short_parts_of(one, other)
    } else {
        edits <= 1
    };
    if are_near && have_same_digits(one, other) {
        Slips::Typed
    } else {
        Slips::Chosen
    }
}
