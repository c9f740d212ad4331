//! Names by their parts, as `limit` and `high` of `limit_high`.
//!
//! A name is misspelled where one of its parts is: a letter is missing or too much, two are swapped, or
//! the part is cut short. A part in which one letter stands for another one is chosen, as in `in` and `on`.

use strsim::osa_distance;

/// The shortest part of which a letter is missing where nothing else of the name is the same.
const SHORTEST: usize = 3;

/// By how many slips of typing two names of as many parts differ, if they come about so.
pub(crate) fn slips_in_parts(one: &str, other: &str) -> Option<usize> {
    let (ones, others): (Vec<&str>, Vec<&str>) = (parts_of(one), parts_of(other));
    if ones.len() != others.len() {
        return None;
    }
    let differ: Vec<(&str, &str)> = ones
        .into_iter()
        .zip(others)
        .filter(|(one, other)| !one.eq_ignore_ascii_case(other))
        .collect();
    let is_alone = differ.len() == one.split('_').count();
    match differ.as_slice() {
        [(one, other)] => slips_in_part(one, other, is_alone),
        _ => None,
    }
}

/// The parts of a name.
pub(crate) fn parts_of(name: &str) -> Vec<&str> {
    name.split('_').filter(|part| !part.is_empty()).collect()
}

// By how many slips two parts differ; more letters have to be the same where a part is the whole name.
fn slips_in_part(one: &str, other: &str, is_alone: bool) -> Option<usize> {
    let (short, long) = if one.len() < other.len() {
        (one, other)
    } else {
        (other, one)
    };
    let has_digits = |part: &str| part.bytes().any(|byte| byte.is_ascii_digit());
    let least = if is_alone { SHORTEST } else { 2 };
    if short.len() < least || has_digits(short) || has_digits(long) {
        return None;
    }
    let missing = long.len().saturating_sub(short.len());
    let is_cut = !is_alone && long.starts_with(short) && missing <= SHORTEST;
    match (osa_distance(short, long), missing) {
        // A letter is missing, or two are swapped.
        (1, 1) => Some(1),
        (1, 0) if is_swapped(short, long) => Some(1),
        _ if is_cut => Some(1),
        _ => None,
    }
}

// Whether two parts have the same letters in another order.
fn is_swapped(one: &str, other: &str) -> bool {
    let sorted = |part: &str| {
        let mut letters: Vec<u8> = part.bytes().collect();
        letters.sort_unstable();
        letters
    };
    sorted(one) == sorted(other)
}
