//! Translations that say the opposite.

use super::translated::Pair;
use crate::kind::TextKind;
use crate::warning::Findings;
use crate::words::{Vocabulary, words_of};
use std::sync::LazyLock;

/// Words of two sides, in English and in German.
struct Sides {
    english: [&'static [&'static str]; 2],
    german: [&'static [&'static str]; 2],
}

const ALL: &[Sides] = &[
    Sides {
        english: [&["yes"], &["no"]],
        german: [&["ja"], &["nein", "kein", "keine", "nicht"]],
    },
    Sides {
        english: [&["on"], &["off"]],
        german: [
            &["ein", "an", "einschalten", "eingeschaltet"],
            &["aus", "ausschalten", "ausgeschaltet"],
        ],
    },
    Sides {
        english: [&["upper"], &["lower"]],
        german: [
            &["obere", "oberer", "oberes", "oben", "obergrenze"],
            &["untere", "unterer", "unteres", "unten", "untergrenze"],
        ],
    },
    Sides {
        english: [
            &["maximum", "max", "maximal"],
            &["minimum", "min", "minimal"],
        ],
        german: [
            &[
                "maximum",
                "max",
                "maximal",
                "maximaler",
                "größter",
                "größte",
            ],
            &[
                "minimum",
                "min",
                "minimal",
                "minimaler",
                "kleinster",
                "kleinste",
            ],
        ],
    },
    Sides {
        english: [&["high", "highest"], &["low", "lowest"]],
        german: [
            &["hoch", "hohe", "hoher", "höchster"],
            &["niedrig", "niedrige", "niedriger", "tief", "tiefer"],
        ],
    },
    Sides {
        english: [&["left"], &["right"]],
        german: [
            &["links", "linker", "linkes", "linke"],
            &["rechts", "rechter", "rechtes", "rechte"],
        ],
    },
    Sides {
        english: [&["input", "inlet"], &["output", "outlet"]],
        german: [
            &["eingang", "einlass", "einlauf"],
            &["ausgang", "auslass", "auslauf"],
        ],
    },
    Sides {
        english: [&["begin", "start"], &["end", "stop"]],
        german: [&["anfang", "beginn", "start"], &["ende", "stopp", "stop"]],
    },
    Sides {
        english: [&["open", "opened"], &["closed", "shut", "close"]],
        german: [
            &["offen", "öffnen", "geöffnet"],
            &["geschlossen", "schließen", "zu"],
        ],
    },
    Sides {
        english: [&["full"], &["empty"]],
        german: [&["voll"], &["leer"]],
    },
    Sides {
        english: [&["large", "larger", "greater"], &["small", "smaller"]],
        german: [&["groß", "größer"], &["klein", "kleiner"]],
    },
    Sides {
        english: [&["first"], &["last"]],
        german: [
            &["erster", "erste", "erstes"],
            &["letzter", "letzte", "letztes"],
        ],
    },
    Sides {
        english: [&["fast", "faster"], &["slow", "slower"]],
        german: [&["schnell", "schneller"], &["langsam", "langsamer"]],
    },
    Sides {
        english: [&["hot", "warm"], &["cold"]],
        german: [&["heiß", "heiss", "warm"], &["kalt"]],
    },
];

/// How many words a text has at most of which two that say the opposite tell enough.
const LONGEST: usize = 4;

/// Which sides of which pairs words are on, as bits.
#[derive(Clone, Copy, Default)]
struct On {
    first: u16,
    second: u16,
}

/// The words of a language with their sides.
type Known = Vocabulary<On>;

static ENGLISH: LazyLock<Known> = LazyLock::new(|| known(|sides| sides.english));
static GERMAN: LazyLock<Known> = LazyLock::new(|| known(|sides| sides.german));

fn known(language: fn(&Sides) -> [&'static [&'static str]; 2]) -> Known {
    let bits = std::iter::successors(Some(1_u16), |bit| bit.checked_mul(2));
    let all = ALL.iter().zip(bits).flat_map(|(sides, bit)| {
        let [first, second] = language(sides);
        let on_first = On {
            first: bit,
            second: 0,
        };
        let on_second = On {
            first: 0,
            second: bit,
        };
        let first = first.iter().map(move |word| (*word, on_first));
        first.chain(second.iter().map(move |word| (*word, on_second)))
    });
    Vocabulary::of(all)
}

impl On {
    // The sides of which some words are, where none is of the other side. Of a long text nothing is said.
    fn of(text: &str, known: &Known) -> Option<On> {
        let mut all = On::default();
        for (count, word) in words_of(text).enumerate() {
            if count == LONGEST {
                return None;
            }
            let on = known.get(word).unwrap_or_default();
            all.first |= on.first;
            all.second |= on.second;
        }
        Some(On {
            first: all.first & !all.second,
            second: all.second & !all.first,
        })
    }
}

// Whether two texts say the opposite, and nothing alike.
fn are_opposite(english: &str, german: &str) -> bool {
    let english = On::of(english, &ENGLISH).filter(|one| (one.first | one.second) != 0);
    let Some((one, other)) = english.and_then(|one| Some((one, On::of(german, &GERMAN)?))) else {
        return false;
    };
    let alike = (one.first & other.first) | (one.second & other.second);
    let opposite = (one.first & other.second) | (one.second & other.first);
    alike == 0 && opposite != 0
}

/// Checks whether the German of a text says the opposite of its English. Of a list each choice is looked at.
pub(super) fn check_opposites(pairs: &[Pair<'_>], findings: &mut Findings<'_>) {
    for pair in pairs {
        let is_opposite = if pair.spoken.is_choices {
            let mut choices = pair.english.split(';').zip(pair.german.split(';'));
            choices.any(|(one, other)| are_opposite(one, other))
        } else {
            are_opposite(pair.english, pair.german)
        };
        if is_opposite {
            findings.add(pair.spoken.at, TextKind::OppositeTranslation);
        }
    }
}

#[cfg(test)]
mod tests {
    use super::*;

    #[test]
    fn each_word_is_on_one_side() {
        for sides in ALL {
            for [one, other] in [sides.english, sides.german] {
                assert!(!one.iter().any(|word| other.contains(word)));
            }
        }
        let words = |language: fn(&Sides) -> [&'static [&'static str]; 2]| {
            let all = ALL.iter().flat_map(move |sides| language(sides).concat());
            all.collect::<Vec<_>>()
        };
        for words in [words(|sides| sides.english), words(|sides| sides.german)] {
            let mut single = words.clone();
            single.sort_unstable();
            single.dedup();
            assert_eq!(single.len(), words.len());
        }
    }
}
