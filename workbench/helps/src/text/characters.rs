//! Characters that look like those of the language, or like nothing.

use std::fmt;

/// A character that no token has.
#[derive(Clone, Copy, Debug, PartialEq, Eq)]
pub struct CharacterHelp {
    /// The character.
    pub character: char,
    /// What is known of it.
    pub looks: CharacterLooks,
}

/// What is known of a character.
#[derive(Clone, Copy, Debug, PartialEq, Eq)]
pub enum CharacterLooks {
    /// It is not seen, and has this name where it has one.
    Unseen(Option<&'static str>),
    /// It has a name and looks like something of the language.
    Like {
        /// Its name.
        name: &'static str,
        /// What it looks like.
        like: &'static str,
    },
    /// It is this sign at twice the width.
    Wide(char),
    /// It is of another alphabet.
    Foreign(&'static str),
    /// It stands in strings and comments alone.
    Other,
}

const QUOTE: &str = "a quote: a text stands between two \"";

fn seen(name: &'static str, like: &'static str) -> Option<CharacterLooks> {
    Some(CharacterLooks::Like { name, like })
}

fn unseen(name: &'static str) -> Option<CharacterLooks> {
    Some(CharacterLooks::Unseen(Some(name)))
}

// Signs and spaces that are not those of the language.
fn sign(character: char) -> Option<CharacterLooks> {
    match character {
        '\u{a0}' => seen("NO-BREAK SPACE", "a space"),
        '\u{2002}' => seen("EN SPACE", "a space"),
        '\u{2003}' => seen("EM SPACE", "a space"),
        '\u{2009}' => seen("THIN SPACE", "a space"),
        '\u{202f}' => seen("NARROW NO-BREAK SPACE", "a space"),
        '\u{3000}' => seen("IDEOGRAPHIC SPACE", "a space"),
        '\u{2028}' => unseen("LINE SEPARATOR"),
        '\u{2029}' => unseen("PARAGRAPH SEPARATOR"),
        '\u{200b}' => unseen("ZERO WIDTH SPACE"),
        '\u{200c}' => unseen("ZERO WIDTH NON-JOINER"),
        '\u{200d}' => unseen("ZERO WIDTH JOINER"),
        '\u{2060}' => unseen("WORD JOINER"),
        '\u{feff}' => unseen("ZERO WIDTH NO-BREAK SPACE"),
        '\u{ad}' => unseen("SOFT HYPHEN"),
        '\u{200e}' => unseen("LEFT-TO-RIGHT MARK"),
        '\u{200f}' => unseen("RIGHT-TO-LEFT MARK"),
        '\u{202a}' => unseen("LEFT-TO-RIGHT EMBEDDING"),
        '\u{202b}' => unseen("RIGHT-TO-LEFT EMBEDDING"),
        '\u{202c}' => unseen("POP DIRECTIONAL FORMATTING"),
        '\u{202d}' => unseen("LEFT-TO-RIGHT OVERRIDE"),
        '\u{202e}' => unseen("RIGHT-TO-LEFT OVERRIDE"),
        '\u{2066}' => unseen("LEFT-TO-RIGHT ISOLATE"),
        '\u{2067}' => unseen("RIGHT-TO-LEFT ISOLATE"),
        '\u{2068}' => unseen("FIRST STRONG ISOLATE"),
        '\u{2069}' => unseen("POP DIRECTIONAL ISOLATE"),
        '\u{37e}' => seen("GREEK QUESTION MARK", ";"),
        '\u{2010}' => seen("HYPHEN", "-"),
        '\u{2011}' => seen("NON-BREAKING HYPHEN", "-"),
        '\u{2013}' => seen("EN DASH", "-"),
        '\u{2014}' => seen("EM DASH", "-"),
        '\u{2212}' => seen("MINUS SIGN", "-"),
        '\u{2018}' => seen("LEFT SINGLE QUOTATION MARK", QUOTE),
        '\u{2019}' => seen("RIGHT SINGLE QUOTATION MARK", QUOTE),
        '\u{201a}' => seen("SINGLE LOW-9 QUOTATION MARK", QUOTE),
        '\u{201c}' => seen("LEFT DOUBLE QUOTATION MARK", QUOTE),
        '\u{201d}' => seen("RIGHT DOUBLE QUOTATION MARK", QUOTE),
        '\u{201e}' => seen("DOUBLE LOW-9 QUOTATION MARK", QUOTE),
        '\u{ab}' => seen("LEFT-POINTING DOUBLE ANGLE QUOTATION MARK", QUOTE),
        '\u{bb}' => seen("RIGHT-POINTING DOUBLE ANGLE QUOTATION MARK", QUOTE),
        '\u{2032}' => seen("PRIME", QUOTE),
        '\u{2033}' => seen("DOUBLE PRIME", QUOTE),
        '\u{d7}' => seen("MULTIPLICATION SIGN", "*"),
        '\u{22c5}' => seen("DOT OPERATOR", "*"),
        '\u{f7}' => seen("DIVISION SIGN", "/"),
        '\u{2260}' => seen("NOT EQUAL TO", "!="),
        '\u{2264}' => seen("LESS-THAN OR EQUAL TO", "<="),
        '\u{2265}' => seen("GREATER-THAN OR EQUAL TO", ">="),
        _ => None,
    }
}

// Letters that look like those of the language.
fn letter(character: char) -> Option<CharacterLooks> {
    match character {
        '\u{391}' => seen("GREEK CAPITAL LETTER ALPHA", "A"),
        '\u{392}' => seen("GREEK CAPITAL LETTER BETA", "B"),
        '\u{395}' => seen("GREEK CAPITAL LETTER EPSILON", "E"),
        '\u{39f}' => seen("GREEK CAPITAL LETTER OMICRON", "O"),
        '\u{3bf}' => seen("GREEK SMALL LETTER OMICRON", "o"),
        '\u{410}' => seen("CYRILLIC CAPITAL LETTER A", "A"),
        '\u{412}' => seen("CYRILLIC CAPITAL LETTER VE", "B"),
        '\u{415}' => seen("CYRILLIC CAPITAL LETTER IE", "E"),
        '\u{41e}' => seen("CYRILLIC CAPITAL LETTER O", "O"),
        '\u{421}' => seen("CYRILLIC CAPITAL LETTER ES", "C"),
        '\u{422}' => seen("CYRILLIC CAPITAL LETTER TE", "T"),
        '\u{430}' => seen("CYRILLIC SMALL LETTER A", "a"),
        '\u{435}' => seen("CYRILLIC SMALL LETTER IE", "e"),
        '\u{43e}' => seen("CYRILLIC SMALL LETTER O", "o"),
        '\u{440}' => seen("CYRILLIC SMALL LETTER ER", "p"),
        '\u{441}' => seen("CYRILLIC SMALL LETTER ES", "c"),
        '\u{445}' => seen("CYRILLIC SMALL LETTER HA", "x"),
        _ => None,
    }
}

/// The first of the characters that are ASCII at twice the width, and the last.
const FULL_WIDTH: (u32, u32) = (0xff01, 0xff5e);

/// What is taken from the code of such a one for that of its sign.
const WIDTH: u32 = 0xfee0;

// The sign that a character of twice the width is.
fn narrow(character: char) -> Option<char> {
    let code = u32::from(character);
    if code < FULL_WIDTH.0 || FULL_WIDTH.1 < code {
        return None;
    }
    char::from_u32(code.checked_sub(WIDTH)?)
}

// The alphabet of a letter whose letters look like others.
fn alphabet(character: char) -> Option<&'static str> {
    match u32::from(character) {
        0x370..=0x3ff => Some("a Greek letter or sign"),
        0x400..=0x52f => Some("a Cyrillic letter"),
        _ => None,
    }
}

impl CharacterHelp {
    /// What is known of a character.
    pub(crate) fn of(character: char) -> CharacterHelp {
        let looks = sign(character)
            .or_else(|| letter(character))
            .or_else(|| {
                character
                    .is_ascii_control()
                    .then_some(CharacterLooks::Unseen(None))
            })
            .or_else(|| narrow(character).map(CharacterLooks::Wide))
            .or_else(|| alphabet(character).map(CharacterLooks::Foreign))
            .unwrap_or(CharacterLooks::Other);
        CharacterHelp { character, looks }
    }
}

impl fmt::Display for CharacterHelp {
    fn fmt(&self, f: &mut fmt::Formatter<'_>) -> fmt::Result {
        write!(f, "U+{:04X}", u32::from(self.character))?;
        match self.looks {
            CharacterLooks::Unseen(Some(name)) => write!(f, " {name} is not seen: leave it out"),
            CharacterLooks::Unseen(None) => write!(f, " is not seen: leave it out"),
            CharacterLooks::Like { name, like } => write!(f, " {name} looks like {like}"),
            CharacterLooks::Wide(sign) => write!(f, " is {sign} of twice the width"),
            CharacterLooks::Foreign(of) => {
                write!(f, " is {of}: words have ASCII letters, digits and _")
            }
            CharacterLooks::Other => write!(f, " stands in strings and comments alone"),
        }
    }
}
