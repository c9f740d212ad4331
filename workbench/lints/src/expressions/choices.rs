//! The choices of a SELECT_FROM_LIST, and the seconds of a DELAY.

use super::calls::number_of_argument;
use super::walk::Walk;
use crate::claims::seconds_in;
use crate::kind::{MethodKind, TextKind};
use crate::source::TokenIndex;
use crate::texts::variants::Variants;
use crate::traits::quoted;
use edd_syntax::expr::Argument;
use edd_syntax::reference::Target;
use std::collections::HashSet;

/// From so many on, the milliseconds of another language are meant.
const LONG_DELAY: i64 = 1000;

// The second text, which lists the choices.
fn list_of(arguments: &[Argument<Target>]) -> Option<&str> {
    match arguments.get(1)? {
        Argument::Text(text) => quoted(text),
        Argument::Value(_) => None,
    }
}

/// How many choices the second text of a SELECT_FROM_LIST has in its first language.
pub(crate) fn count_choices(arguments: &[Argument<Target>]) -> Option<i64> {
    let first = Variants::of(list_of(arguments)?.as_bytes()).next()?;
    let count = first.words.split(|byte| *byte == b';').count();
    i64::try_from(count).ok()
}

fn has_gap(words: &[u8]) -> bool {
    let mut choices = words.split(|byte| *byte == b';').map(<[u8]>::trim_ascii);
    // A list may end with a semicolon.
    let last = choices.next_back();
    let is_alone = words.trim_ascii().is_empty();
    is_alone || (last.is_some() && choices.any(<[u8]>::is_empty))
}

// Whether a list has one choice twice.
fn has_repeated(words: &[u8]) -> bool {
    let mut choices = words.split(|byte| *byte == b';').map(<[u8]>::trim_ascii);
    let mut seen = HashSet::new();
    choices.any(|choice| !choice.is_empty() && !seen.insert(choice))
}

/// Checks the choices of a SELECT_FROM_LIST.
pub(super) fn check_choices(
    arguments: &[Argument<Target>],
    at: TokenIndex,
    walk: &mut Walk<'_, '_>,
) {
    let Some(list) = list_of(arguments) else {
        return;
    };
    let variants = || Variants::of(list.as_bytes());
    if count_choices(arguments) == Some(1)
        && variants().any(|variant| variant.words.contains(&b','))
    {
        walk.findings.add(at, TextKind::CommaChoices);
    }
    if variants().any(|variant| has_gap(variant.words)) {
        walk.findings.add(at, TextKind::EmptyChoice);
    }
    if variants().any(|variant| has_repeated(variant.words)) {
        walk.findings.add(at, TextKind::RepeatedChoice);
    }
}

/// Checks how long a DELAY lasts.
pub(super) fn check_delay(arguments: &[Argument<Target>], at: TokenIndex, walk: &mut Walk<'_, '_>) {
    match number_of_argument(arguments, 0) {
        Some(seconds) if seconds < 0 => {
            walk.findings.add(at, MethodKind::NegativeDelay(seconds));
        }
        Some(seconds) if LONG_DELAY <= seconds => {
            walk.findings.add(at, MethodKind::LongDelay(seconds));
        }
        Some(seconds) => {
            let text = match arguments.get(1) {
                Some(Argument::Text(text)) => quoted(text),
                _ => None,
            };
            let named = text.and_then(seconds_in).filter(|named| *named != seconds);
            if let Some(named) = named {
                walk.findings
                    .add(at, MethodKind::NamedDelay(named, seconds));
            }
        }
        None => {}
    }
}
