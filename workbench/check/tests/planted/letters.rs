//! Words with a slip of typing.

/// A slip of typing.
#[derive(Clone, Copy, Debug)]
pub(crate) enum Letters {
    /// Two letters are swapped.
    Swapped,
    /// A letter is left out.
    Dropped,
    /// A letter is there twice.
    Doubled,
    /// The letters are of the other case.
    OtherCase,
    /// An underscore is a hyphen.
    Hyphen,
    /// An underscore is a blank.
    Blank,
}

impl Letters {
    /// The word with this slip at a letter, or the next one at which it can be made.
    pub(crate) fn slip(self, word: &str, at: usize) -> Option<String> {
        let letters: Vec<char> = word.chars().collect();
        // The first letter is seldom wrong.
        let places = (1..letters.len()).cycle().skip(at).take(letters.len());
        let mut made = places.filter_map(|place| self.slip_at(&letters, place));
        made.find(|made| made != word)
    }

    fn slip_at(self, letters: &[char], place: usize) -> Option<String> {
        let mut made = letters.to_vec();
        match self {
            Letters::Swapped => {
                let next = place.checked_add(1).filter(|next| *next < made.len())?;
                made.swap(place, next);
            }
            Letters::Dropped => {
                made.remove(place);
            }
            Letters::Doubled => made.insert(place, letters[place]),
            Letters::OtherCase => return Some(other_case(letters)),
            Letters::Hyphen | Letters::Blank => {
                made[place] = match (letters[place], self) {
                    ('_', Letters::Hyphen) => '-',
                    ('_', _) => ' ',
                    _ => return None,
                };
            }
        }
        Some(made.into_iter().collect())
    }
}

fn other_case(letters: &[char]) -> String {
    let word: String = letters.iter().collect();
    if word.chars().any(char::is_lowercase) {
        word.to_uppercase()
    } else {
        word.to_lowercase()
    }
}
