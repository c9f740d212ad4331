//! Damages: what is done to a text or an image.
use crate::dice::Dice;

/// The longest piece that is cut out, doubled or taken from another.
const PIECE: usize = 64;

/// The header of an image before its sections: fields of two and of four bytes.
const HEADER: usize = 64;

/// Where an image says how long it is.
const LENGTH: std::ops::Range<usize> = 8..12;

/// Letters that mean something in a text.
const SIGNS: &[u8] = b"{}()[];,:\"|<>=!&+-*/%?.#\\ \n09azIF";

/// Words and pieces of the language, put anywhere.
const WORDS: &[&str] = &[
    "IF",
    "ELSE",
    "SELECT",
    "CASE 1:",
    "DEFAULT:",
    "VARIABLE x {",
    "METHOD m {",
    "DEFINITION {",
    "}",
    "{",
    "abort();",
    "break;",
    "int i;",
    "for (;;)",
    "while (1)",
    "do",
    "switch (x) {",
    "\"|en|a|de|b\"",
    "[key]",
    "1.5",
    "0xFFFFFFFF",
    "4294967295",
    "-1",
    "<<",
    ">>",
    "ARRAY OF VARIABLE",
    "COLLECTION OF VARIABLE k {",
    "TYPE INTEGER (4)",
    "LABEL",
    "add_abort_method(m);",
    "#line 3\n",
    "/*",
    "*/",
    "//",
];

fn piece(dice: &mut Dice, data: &[u8]) -> (usize, usize) {
    let start = dice.below(data.len());
    (start, (start + 1 + dice.below(PIECE)).min(data.len()))
}

fn exchange(dice: &mut Dice, data: &mut [u8]) {
    let size = [1, 2, 4, 8, 16][dice.below(5)];
    if data.len() > 2 * size {
        let (first, second) = (dice.below(data.len() - size), dice.below(data.len() - size));
        for at in 0..size {
            data.swap(first + at, second + at);
        }
    }
}

fn take_from(dice: &mut Dice, data: &mut Vec<u8>, other: &[u8]) {
    let (start, end) = piece(dice, data);
    let (from, to) = if other.is_empty() {
        (0, 0)
    } else {
        piece(dice, other)
    };
    data.splice(start..end, other[from..to].iter().copied());
}

/// A text with one to three damages.
pub fn text(dice: &mut Dice, source: &[u8], other: &[u8]) -> Vec<u8> {
    let mut data = source.to_vec();
    for _ in 0..=dice.below(3) {
        if data.is_empty() {
            break;
        }
        let at = dice.below(data.len());
        match dice.below(9) {
            0 => data[at] = dice.byte(),
            1 | 2 => data[at] = SIGNS[dice.below(SIGNS.len())],
            3 => exchange(dice, &mut data),
            4 => {
                let (start, end) = piece(dice, &data);
                data.drain(start..end);
            }
            5 => {
                let (start, end) = piece(dice, &data);
                let doubled = data[start..end].to_vec();
                data.splice(end..end, doubled);
            }
            6 => take_from(dice, &mut data, other),
            7 => {
                let word = dice.of(WORDS);
                data.splice(at..at, word.bytes());
            }
            _ => {
                data.remove(at);
            }
        }
    }
    data
}

/// A number of four bytes at the edge of something.
fn edge(dice: &mut Dice) -> u32 {
    let power = 1_u32 << dice.below(32);
    match dice.below(6) {
        0 => u32::MAX,
        1 => 0,
        2 => power,
        3 => power - 1,
        4 => u32::MAX - dice.below(64) as u32,
        _ => dice.below(64) as u32,
    }
}

fn set_number(dice: &mut Dice, data: &mut [u8], within: usize) {
    let within = within.min(data.len());
    if within >= 4 {
        let at = dice.below(within / 2 - 1) * 2;
        data[at..at + 4].copy_from_slice(&edge(dice).to_be_bytes());
    }
}

/// An image with one to three damages, mostly with a length that is said rightly.
pub fn image(dice: &mut Dice, source: &[u8], other: &[u8]) -> Vec<u8> {
    let mut data = source.to_vec();
    for _ in 0..=dice.below(3) {
        if data.len() <= HEADER {
            break;
        }
        let at = dice.below(data.len());
        match dice.below(16) {
            0..=3 => data[at] = dice.byte(),
            4..=6 => data[at] = dice.below(8) as u8,
            7..=9 => data[at] = 0x20 + dice.below(0x33) as u8,
            10 => exchange(dice, &mut data),
            11 => take_from(dice, &mut data, other),
            12 => set_number(dice, &mut data, HEADER),
            13 => set_number(dice, &mut data, usize::MAX),
            14 => {
                let (start, end) = piece(dice, &data);
                data.drain(start..end);
            }
            _ => {
                let (start, end) = piece(dice, &data);
                let doubled = data[start..end].to_vec();
                data.splice(end..end, doubled);
            }
        }
    }
    if data.len() > HEADER && !dice.one_in(16) {
        let length = data.len() as u32;
        data[LENGTH].copy_from_slice(&length.to_be_bytes());
    }
    data
}
