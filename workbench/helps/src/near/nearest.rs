//! The nearest word to one that is misspelled.
//!
//! A name that is proposed has to come about by a slip of typing: one that is chosen on purpose, as
//! `upper` beside `lower` or `out_min` beside `out_max`, would give a text that means another thing.

use super::parts::slips_in_parts;
use super::typing::{Slips, slips_between};
use strsim::levenshtein;

/// The longest word that is compared, in bytes, so that many long names take no long time.
const LONGEST: usize = 64;

/// Among what a word is looked for.
#[derive(Clone, Copy, Debug)]
enum Among {
    /// Names that a maker has chosen.
    Names,
    /// The words of the language, of which the grammar takes few in a place.
    Words,
}

// How many edits are few enough for a name.
fn most_of_name(length: usize) -> usize {
    match length {
        0..=2 => 0,
        3..=5 => 1,
        _ => 2,
    }
}

// How many are for a word of the language.
fn most_of_word(length: usize) -> usize {
    match length {
        0..=2 => 0,
        3..=4 => 1,
        5..=8 => 2,
        _ => 3,
    }
}

// How many edits are few enough: none that gives another word.
fn most_edits(word: &str, among: Among) -> usize {
    match among {
        Among::Names => most_of_name(word.len()),
        Among::Words => most_of_word(word.len()),
    }
}

/// How many of its letters a word has in each of some buckets, whatever their case.
#[derive(Clone, Copy, Debug)]
struct Letters {
    counts: [u8; BUCKETS],
}

/// Into so many buckets the lowest bits of a letter put it.
const BUCKETS: usize = 32;

fn bucket_of(byte: u8) -> usize {
    usize::from(byte % 32)
}

impl Letters {
    fn of(word: &str) -> Letters {
        let mut counts = [0_u8; BUCKETS];
        for byte in word.bytes().filter(|byte| *byte != b'_') {
            if let Some(count) = counts.get_mut(bucket_of(byte)) {
                *count = count.saturating_add(1);
            }
        }
        Letters { counts }
    }

    // Whether a word has more than so many letters that these lack.
    fn lack(&self, word: &str, most: usize) -> bool {
        let mut left = self.counts;
        let mut extra: usize = 0;
        for byte in word.bytes().filter(|byte| *byte != b'_') {
            if let Some(count) = left.get_mut(bucket_of(byte)) {
                if *count == 0 {
                    extra = extra.saturating_add(1);
                } else {
                    *count = count.saturating_sub(1);
                }
            }
            if most < extra {
                return true;
            }
        }
        false
    }
}

/// The word that is nearest to the one that was looked for, so far.
#[derive(Clone, Copy, Debug)]
pub(crate) struct Nearest<'w, 'a> {
    word: &'w str,
    letters: Letters,
    among: Among,
    edits: usize,
    pub(crate) found: Option<&'a str>,
    /// Another one that is as near.
    pub(crate) other: Option<&'a str>,
}

impl<'w, 'a> Nearest<'w, 'a> {
    fn of(word: &'w str, among: Among) -> Nearest<'w, 'a> {
        Nearest {
            word,
            letters: Letters::of(word),
            among,
            edits: most_edits(word, among),
            found: None,
            other: None,
        }
    }

    /// Of no names.
    pub(crate) fn to(word: &'w str) -> Nearest<'w, 'a> {
        Nearest::of(word, Among::Names)
    }

    /// Of no words of the language.
    pub(crate) fn to_word(word: &'w str) -> Nearest<'w, 'a> {
        Nearest::of(word, Among::Words)
    }

    /// The nearest one, where no other is as near.
    pub(crate) fn alone(&self) -> Option<&'a str> {
        if self.other.is_some() {
            return None;
        }
        self.found
    }

    // By how many edits a word differs, where it may be meant.
    fn distance(&self, word: &str) -> Option<usize> {
        let edits = levenshtein(word, self.word);
        match (slips_between(self.word, word, edits), self.among) {
            (Slips::Swapped, _) => Some(1),
            (Slips::Typed, _) | (Slips::Chosen, Among::Words) => Some(edits),
            (Slips::Chosen, Among::Names) => slips_in_parts(self.word, word),
        }
    }

    // Whether the last part of a name is cut short.
    fn is_cut(&self, word: &str) -> bool {
        self.word.contains('_') && word.starts_with(self.word)
    }

    // Takes a word as the nearest one so far.
    fn take(&mut self, word: &'a str, edits: usize) {
        self.edits = edits;
        self.found = Some(word);
        self.other = None;
    }

    /// Looks at a further word.
    pub(crate) fn look(&mut self, word: &'a str) {
        let longer = word.len().max(self.word.len());
        let shorter = word.len().min(self.word.len());
        let most = self.edits.max(1).saturating_add(1);
        if LONGEST < longer
            || most < longer.saturating_sub(shorter)
            || word == self.word
            || (!self.is_cut(word) && self.letters.lack(word, self.edits))
        {
            return;
        }
        if word.eq_ignore_ascii_case(self.word) {
            self.take(word, 0);
            return;
        }
        let Some(edits) = self.distance(word) else {
            return;
        };
        match self.found {
            Some(found) if edits == self.edits && (found == word || edits == 0) => {}
            Some(_) if edits == self.edits => self.other = Some(word),
            _ if edits <= self.edits => self.take(word, edits),
            _ => {}
        }
    }
}
