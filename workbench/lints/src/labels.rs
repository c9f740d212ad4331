//! The labels of the variables, and which of them a text has.

use crate::instrument::{Instrument, Variable};
use crate::texts::variants::first_words;
use crate::traits::quoted;
use crate::words::terms_of;
use edd_syntax::cond::Cond;
use edd_syntax::item::Attribute;
use edd_syntax::numbers::TextAttribute;
use std::collections::{HashMap, HashSet};

/// How many words of a text are looked up together.
const LONGEST: usize = 4;

/// Labels that many variables could have.
const COMMON: [&str; 12] = [
    "value", "number", "name", "type", "state", "status", "unit", "code", "setting", "password",
    "time", "date",
];

/// How many letters a word has that tells something.
const SHORTEST: usize = 3;

/// The variables by the English labels that no other one has.
pub(crate) struct Labels {
    /// By their words in small letters.
    variables: HashMap<String, Option<u16>>,
}

// The label of a variable in its first language.
fn label_of<'d>(variable: &Variable<'d>) -> Option<&'d str> {
    let attributes = variable.item.attributes.iter();
    let mut label = attributes.filter_map(|one| match one {
        Attribute::OneText(_, TextAttribute::Label, Cond::Value(text)) => quoted(text),
        _ => None,
    });
    Some(first_words(label.next()?))
}

// Writes words in small letters, with blanks between.
fn join<'t>(words: impl IntoIterator<Item = &'t str>, joined: &mut String) {
    joined.clear();
    for word in words {
        if !joined.is_empty() {
            joined.push(' ');
        }
        if word.is_ascii() {
            joined.push_str(word);
        } else {
            joined.push_str(&word.to_lowercase());
        }
    }
    joined.make_ascii_lowercase();
}

impl Labels {
    pub(crate) fn of(instrument: &Instrument<'_>) -> Labels {
        let mut variables = HashMap::new();
        let mut words = String::new();
        for variable in instrument.variables() {
            if let Some(label) = label_of(variable) {
                join(terms_of(label), &mut words);
                let number = Some(variable.number);
                match variables.get_mut(words.as_str()) {
                    Some(known) if *known != number => *known = None,
                    Some(_) => {}
                    None => {
                        variables.insert(words.clone(), number);
                    }
                }
            }
        }
        Labels { variables }
    }

    /// The one variable whose label a text has, where it has no word of the label and the name of its own.
    pub(crate) fn named_in(&self, text: &str, own: &Variable<'_>) -> Option<u16> {
        let words: Vec<_> = terms_of(text).collect();
        let own_words = terms_of(label_of(own)?).chain(terms_of(own.name()));
        let own_words: HashSet<_> = own_words.map(str::to_lowercase).collect();
        let is_own =
            |word: &&str| SHORTEST <= word.len() && own_words.contains(&word.to_lowercase());
        if words.iter().any(is_own) {
            return None;
        }
        let mut found = None;
        let mut label = String::new();
        for length in 1..=LONGEST {
            for part in words.windows(length) {
                join(part.iter().copied(), &mut label);
                if label.len() <= SHORTEST || COMMON.contains(&label.as_str()) {
                    continue;
                }
                let named = self.variables.get(&label).copied().flatten();
                let named = named.filter(|number| *number != own.number);
                if named.is_some() && found.is_some() && named != found {
                    return None;
                }
                found = found.or(named);
            }
        }
        found
    }
}
