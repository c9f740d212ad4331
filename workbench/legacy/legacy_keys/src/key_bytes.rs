//! Keys out of the bytes that a terminal sends.
use std::prelude::v1::*;

use crate::key::Key;

const ESCAPE: u8 = 0x1b;

/// What a byte makes, with those before it.
#[derive(Clone, Copy)]
pub enum Taken {
    /// No key, or none yet.
    Nothing,
    Key(Key),
    /// A key that was whole before the byte, which is to be given again.
    Before(Key),
}

/// How many numbers of a sequence are kept.
const KEPT: usize = 2;

// The first numbers of a sequence, and the place of the one that is read.
#[derive(Clone, Copy)]
struct Numbers {
    numbers: [u16; KEPT],
    place: usize,
}

// What has begun and is not whole.
#[derive(Clone, Copy)]
enum Begun {
    Nothing,
    /// ESC
    Escape,
    /// ESC and `[`, and the numbers after them.
    Sequence(Numbers),
    /// ESC and `O`
    Letter,
    /// Bytes of a character, which has this many.
    Character {
        bytes: [u8; 4],
        count: usize,
        of: usize,
    },
}

/// The bytes of a key that is not whole yet.
pub struct KeyBytes {
    begun: Begun,
}

fn of_letter(letter: u8) -> Taken {
    match letter {
        b'A' => Taken::Key(Key::Up),
        b'B' => Taken::Key(Key::Down),
        b'C' => Taken::Key(Key::Right),
        b'D' => Taken::Key(Key::Left),
        b'H' => Taken::Key(Key::Home),
        b'F' => Taken::Key(Key::End),
        b'M' => Taken::Key(Key::Enter),
        _ => Taken::Nothing,
    }
}

fn of_number(number: u16) -> Taken {
    match number {
        1 | 7 => Taken::Key(Key::Home),
        4 | 8 => Taken::Key(Key::End),
        5 => Taken::Key(Key::PageUp),
        6 => Taken::Key(Key::PageDown),
        _ => Taken::Nothing,
    }
}

// How many bytes a character has that begins so.
fn count_of(first: u8) -> usize {
    match first {
        0..=0xdf => 2,
        0xe0..=0xef => 3,
        _ => 4,
    }
}

// The character that is spelled by bytes, unless it is a control character.
fn of_character(bytes: &[u8]) -> Taken {
    let Ok(text) = str::from_utf8(bytes) else {
        return Taken::Nothing;
    };
    match text.chars().next() {
        Some(character) if !character.is_control() => Taken::Key(Key::Character(character)),
        _ => Taken::Nothing,
    }
}

impl Numbers {
    fn none() -> Numbers {
        Numbers {
            numbers: [0; KEPT],
            place: 0,
        }
    }

    fn add_digit(&mut self, digit: u8) {
        if let Some(number) = self.numbers.get_mut(self.place) {
            *number = number
                .saturating_mul(10)
                .saturating_add(u16::from(digit.wrapping_sub(b'0')));
        }
    }

    // What a sequence with these numbers and this end says.
    fn ended(self, end: u8) -> Taken {
        let first = self.numbers[0];
        let second = self.numbers[1];
        match end {
            b'~' => of_number(first),
            // With a first row it would be a key.
            b'R' if first > 1 && second > 0 => Taken::Key(Key::Size {
                rows: first,
                columns: second,
            }),
            _ => of_letter(end),
        }
    }
}

impl KeyBytes {
    pub fn new() -> KeyBytes {
        KeyBytes {
            begun: Begun::Nothing,
        }
    }

    fn begin(&mut self, byte: u8) -> Taken {
        match byte {
            ESCAPE => {
                self.begun = Begun::Escape;
                Taken::Nothing
            }
            b'\r' | b'\n' => Taken::Key(Key::Enter),
            0x03 => Taken::Key(Key::Interrupt),
            0x04 => Taken::Key(Key::EndOfInput),
            0x08 | 0x7f => Taken::Key(Key::Backspace),
            b' '..=b'~' => Taken::Key(Key::Character(char::from(byte))),
            0xc2..=0xf4 => {
                self.begun = Begun::Character {
                    bytes: [byte, 0, 0, 0],
                    count: 1,
                    of: count_of(byte),
                };
                Taken::Nothing
            }
            _ => Taken::Nothing,
        }
    }

    // After ESC.
    fn after_escape(&mut self, byte: u8) -> Taken {
        match byte {
            b'[' => {
                self.begun = Begun::Sequence(Numbers::none());
                Taken::Nothing
            }
            b'O' => {
                self.begun = Begun::Letter;
                Taken::Nothing
            }
            _ => {
                self.begun = Begun::Nothing;
                Taken::Before(Key::Escape)
            }
        }
    }

    // Within a sequence, which ends with a letter or `~`. What can't be in one begins anew.
    fn in_sequence(&mut self, numbers: Numbers, byte: u8) -> Taken {
        let mut numbers = numbers;
        match byte {
            b'0'..=b'9' => {
                numbers.add_digit(byte);
                self.begun = Begun::Sequence(numbers);
                Taken::Nothing
            }
            b' '..=b'?' => {
                numbers.place = numbers.place.saturating_add(1);
                self.begun = Begun::Sequence(numbers);
                Taken::Nothing
            }
            b'@'..=b'~' => {
                self.begun = Begun::Nothing;
                numbers.ended(byte)
            }
            _ => {
                self.begun = Begun::Nothing;
                self.begin(byte)
            }
        }
    }

    fn after_letter(&mut self, byte: u8) -> Taken {
        self.begun = Begun::Nothing;
        match byte {
            b' '..=b'~' => of_letter(byte),
            _ => self.begin(byte),
        }
    }

    fn in_character(&mut self, bytes: [u8; 4], count: usize, of: usize, byte: u8) -> Taken {
        self.begun = Begun::Nothing;
        if !matches!(byte, 0x80..=0xbf) {
            return self.begin(byte);
        }
        let mut bytes = bytes;
        if let Some(place) = bytes.get_mut(count) {
            *place = byte;
        }
        let count = count.saturating_add(1);
        if count < of {
            self.begun = Begun::Character { bytes, count, of };
            return Taken::Nothing;
        }
        match bytes.get(..count) {
            Some(whole) => of_character(whole),
            None => Taken::Nothing,
        }
    }

    /// Takes the next byte. A sequence may be cut anywhere between two calls.
    pub fn take(&mut self, byte: u8) -> Taken {
        match self.begun {
            Begun::Nothing => self.begin(byte),
            Begun::Escape => self.after_escape(byte),
            Begun::Sequence(numbers) => self.in_sequence(numbers, byte),
            Begun::Letter => self.after_letter(byte),
            Begun::Character { bytes, count, of } => self.in_character(bytes, count, of, byte),
        }
    }

    /// No byte follows for now, so ESC alone is a key.
    pub fn pause(&mut self) -> Option<Key> {
        match self.begun {
            Begun::Escape => {
                self.begun = Begun::Nothing;
                Some(Key::Escape)
            }
            _ => None,
        }
    }
}
