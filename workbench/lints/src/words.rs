//! Words and parts of texts, and tables of them in which many are looked for at once.

/// How many letters the tables tell apart at the begin of a word.
const BUCKETS: usize = 32;

// The place in such a table of what begins with a byte: the same for a capital and its small letter.
fn bucket(first: u8) -> usize {
    usize::from(first & 31)
}

/// The words of a text: the letters that follow each other.
#[derive(Clone)]
pub(crate) struct Words<'t> {
    rest: &'t str,
    /// Whether digits are part of a word.
    with_digits: bool,
}

/// The words of a text, in their order.
pub(crate) fn words_of(text: &str) -> Words<'_> {
    Words {
        rest: text,
        with_digits: false,
    }
}

/// The words of a text in which digits are as letters.
pub(crate) fn terms_of(text: &str) -> Words<'_> {
    Words {
        rest: text,
        with_digits: true,
    }
}

impl Words<'_> {
    fn is_of_word(&self, sign: char) -> bool {
        sign.is_alphabetic() || (self.with_digits && sign.is_numeric())
    }

    // How many bytes of a text are all of words, or all of none.
    fn length_while(&self, text: &str, is_of_word: bool) -> usize {
        let bytes = text.as_bytes();
        let with_digits = self.with_digits;
        let ends = |byte: &u8| {
            let is_letter = byte.is_ascii_alphabetic() || (with_digits && byte.is_ascii_digit());
            !byte.is_ascii() || is_letter != is_of_word
        };
        let length = bytes.iter().position(ends).unwrap_or(bytes.len());
        if bytes.get(length).is_none_or(u8::is_ascii) {
            return length;
        }
        let behind = text.get(length..).unwrap_or_default();
        let more = behind.find(|sign: char| self.is_of_word(sign) != is_of_word);
        length.saturating_add(more.unwrap_or(behind.len()))
    }
}

impl<'t> Iterator for Words<'t> {
    type Item = &'t str;

    fn next(&mut self) -> Option<&'t str> {
        let (_, text) = self
            .rest
            .split_at_checked(self.length_while(self.rest, false))?;
        let (word, rest) = text.split_at_checked(self.length_while(text, true))?;
        self.rest = rest;
        (!word.is_empty()).then_some(word)
    }
}

/// A table of words, with what each of them stands for.
pub(crate) struct Vocabulary<T> {
    words: [Vec<(&'static str, T)>; BUCKETS],
    /// The lengths of the words that begin so, as bits.
    lengths: [u64; BUCKETS],
}

impl<T: Copy> Vocabulary<T> {
    pub(crate) fn of(all: impl IntoIterator<Item = (&'static str, T)>) -> Vocabulary<T> {
        let mut vocabulary = Vocabulary {
            words: std::array::from_fn(|_| Vec::new()),
            lengths: [0; BUCKETS],
        };
        for (word, meaning) in all {
            let place = bucket(word.as_bytes().first().copied().unwrap_or_default());
            if let Some(words) = vocabulary.words.get_mut(place) {
                words.push((word, meaning));
            }
            if let Some(lengths) = vocabulary.lengths.get_mut(place) {
                *lengths |= length_bit(word);
            }
        }
        vocabulary
    }

    fn find(&self, word: &str, is_it: impl Fn(&str) -> bool) -> Option<T> {
        let place = bucket(*word.as_bytes().first()?);
        if self.lengths.get(place)? & length_bit(word) == 0 {
            return None;
        }
        let mut words = self.words.get(place)?.iter();
        let (_, meaning) = words.find(|(known, _)| is_it(known))?;
        Some(*meaning)
    }

    /// What a word stands for, in whatever letters it is.
    pub(crate) fn get(&self, word: &str) -> Option<T> {
        self.find(word, |known| is_word(word, known))
    }

    /// What a word stands for, letter by letter.
    pub(crate) fn get_exactly(&self, word: &str) -> Option<T> {
        self.find(word, |known| word == known)
    }
}

// The bit of a length. Words of very different lengths may have the same.
fn length_bit(word: &str) -> u64 {
    let length = u32::try_from(word.len()).unwrap_or_default();
    1_u64.wrapping_shl(length)
}

// Whether a word is one of small letters but for its capitals.
fn is_word(word: &str, known: &str) -> bool {
    word.len() == known.len()
        && (word.eq_ignore_ascii_case(known) || (!word.is_ascii() && word.to_lowercase() == known))
}

/// A list of parts of texts, in small letters of ASCII.
pub(crate) struct Phrases {
    all: &'static [&'static str],
    /// The bytes that begin one, in small letters.
    firsts: u128,
}

fn byte_bit(byte: u8) -> u128 {
    1_u128.checked_shl(u32::from(byte)).unwrap_or_default()
}

impl Phrases {
    pub(crate) fn of(all: &'static [&'static str]) -> Phrases {
        let firsts = all.iter().filter_map(|phrase| phrase.as_bytes().first());
        let firsts = firsts.fold(0, |bits, first| bits | byte_bit(*first));
        Phrases { all, firsts }
    }

    /// The first one of the list that a text has somewhere, in whatever letters.
    pub(crate) fn find(&self, text: &str) -> Option<&'static str> {
        let mut found = None;
        // Only those before what was found count from there on.
        let mut left = self.all;
        let bytes = text.as_bytes();
        for (at, byte) in bytes.iter().enumerate() {
            if self.firsts & byte_bit(byte.to_ascii_lowercase()) == 0 {
                continue;
            }
            let behind = bytes.get(at..).unwrap_or_default();
            let is_here = |phrase: &&str| {
                let part = behind.get(..phrase.len());
                part.is_some_and(|part| part.eq_ignore_ascii_case(phrase.as_bytes()))
            };
            if let Some(place) = left.iter().position(is_here) {
                found = left.get(place).copied();
                left = left.get(..place).unwrap_or_default();
            }
        }
        found
    }
}

#[cfg(test)]
mod tests {
    use super::*;

    #[test]
    fn words_are_runs_of_letters() {
        let all = |text| words_of(text).collect::<Vec<_>>();
        assert_eq!(all(""), [""; 0]);
        assert_eq!(all("12 _"), [""; 0]);
        assert_eq!(all("lower_limit2"), ["lower", "limit"]);
        assert_eq!(all("Öffnen – größter Wert."), ["Öffnen", "größter", "Wert"]);
        assert_eq!(all("aß→b"), ["aß", "b"]);
    }

    #[test]
    fn a_vocabulary_takes_words_in_whatever_letters() {
        let known = Vocabulary::of([("low", 1), ("lowest", 2), ("größer", 3), ("°C", 4)]);
        assert_eq!(known.get("Low"), Some(1));
        assert_eq!(known.get("LOWEST"), Some(2));
        assert_eq!(known.get("GRÖßER"), Some(3));
        assert_eq!(known.get("lower"), None);
        assert_eq!(known.get(""), None);
        assert_eq!(known.get_exactly("°C"), Some(4));
        assert_eq!(known.get_exactly("Low"), None);
    }

    #[test]
    fn the_first_phrase_of_the_list_counts() {
        let phrases = Phrases::of(&["too large", "error", "too"]);
        assert_eq!(phrases.find("Error: value Too Large"), Some("too large"));
        assert_eq!(phrases.find("two errors, too"), Some("error"));
        assert_eq!(phrases.find("out of reach"), None);
        assert_eq!(phrases.find("that is too"), Some("too"));
    }
}
